# Completion for bash, made from completions/keys.txt by completions/generate: source it, or put it where bash-completion looks for it.

_euler_desk() {
  local current=${COMP_WORDS[COMP_CWORD]} keys word
  # bash parts words at =, so that `in=FILE` is three of them
  if [[ $current == = ]]; then
    word=${COMP_WORDS[COMP_CWORD - 1]}= current=
  elif ((COMP_CWORD > 1)) && [[ ${COMP_WORDS[COMP_CWORD - 1]} == = ]]; then
    word=${COMP_WORDS[COMP_CWORD - 2]}=
  else
    keys="in= script= nonempty= sibling= coverage="
    mapfile -t COMPREPLY < <(compgen -W "$keys" -- "$current")
    compopt -o nospace
    return
  fi
  case $word in
    in= | script=)
      mapfile -t COMPREPLY < <(compgen -f -- "$current")
      compopt -o filenames
      ;;
    nonempty=) mapfile -t COMPREPLY < <(compgen -W "on off" -- "$current") ;;
    sibling=) mapfile -t COMPREPLY < <(compgen -W "on off" -- "$current") ;;
    coverage=) mapfile -t COMPREPLY < <(compgen -W "on off" -- "$current") ;;
  esac
}

complete -F _euler_desk euler_desk
