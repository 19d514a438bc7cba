"""Plain programs that do what docs/DEFINITIONS.md and docs/FORMATS.md say, for problems of a few concepts, by trying every point and every
set of statements: they share no code with the program, but were written by somebody who knew it."""
