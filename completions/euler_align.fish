# Completion for fish, made from completions/keys.txt by completions/generate: put it into ~/.config/fish/completions.

function __euler_align_files
    # where there may be several, what stands before the last comma stays
    set -l word (commandline -ct)
    set -l several
    test (count $argv) -gt 1; and set several "(?:.*,)?"
    set -l before (string match -r "^$argv[1]=$several" -- $word)
    if test -n "$before"
        for file in (__fish_complete_path (string replace "$before" "" -- $word))
            echo $before$file
        end
    else
        echo "$argv[1]="
    end
end

function __euler_align_list
    # what stands before the last comma stays
    set -l before (string match -r "^$argv[1]=(?:.*,)?" -- (commandline -ct))
    test -n "$before"; or set before "$argv[1]="
    for word in $argv[2..]
        echo $before$word
    end
end

complete -c euler_align -f
set -l commands align check mir conflict lattice explain report parts part join trial
complete -c euler_align -n "not __fish_seen_subcommand_from $commands" -a align -d 'List the possible worlds in order, one to a line, with a letter for each pair of concepts'
complete -c euler_align -n "not __fish_seen_subcommand_from $commands" -a check -d 'Check a certificate, and print what it says'
complete -c euler_align -n "not __fish_seen_subcommand_from $commands" -a mir -d 'For each pair of concepts from two taxonomies, print the relations that are possible'
complete -c euler_align -n "not __fish_seen_subcommand_from $commands" -a conflict -d 'Find a minimal set of statements that can\'t stand together'
complete -c euler_align -n "not __fish_seen_subcommand_from $commands" -a lattice -d 'Find all conflicts and all ways out of them'
complete -c euler_align -n "not __fish_seen_subcommand_from $commands" -a explain -d 'Tell why a relation follows'
complete -c euler_align -n "not __fish_seen_subcommand_from $commands" -a report -d 'Report on all possible worlds at once'
complete -c euler_align -n "not __fish_seen_subcommand_from $commands" -a parts -d 'Cut the listing into parts for several machines'
complete -c euler_align -n "not __fish_seen_subcommand_from $commands" -a part -d 'List the worlds of one part, with a certificate'
complete -c euler_align -n "not __fish_seen_subcommand_from $commands" -a join -d 'Join the certificates of parts'
complete -c euler_align -n "not __fish_seen_subcommand_from $commands" -a trial -d 'Make a problem from a seed and a size, list its worlds, check the certificate of that listing, and print a summary'
complete -c euler_align -n "__fish_seen_subcommand_from align" -a '(__euler_align_files in)' -d 'The problem'
complete -c euler_align -n "__fish_seen_subcommand_from align" -a '(__euler_align_files cert)' -d 'The certificate'
complete -c euler_align -n "__fish_seen_subcommand_from align" -a 'nonempty=on nonempty=off' -d 'Three rules, each on (the default) or off'
complete -c euler_align -n "__fish_seen_subcommand_from align" -a 'sibling=on sibling=off' -d 'Three rules, each on (the default) or off'
complete -c euler_align -n "__fish_seen_subcommand_from align" -a 'coverage=on coverage=off' -d 'Three rules, each on (the default) or off'
complete -c euler_align -n "__fish_seen_subcommand_from align" -a nodes= -d 'Stop after that many steps of the search, or after that many worlds'
complete -c euler_align -n "__fish_seen_subcommand_from align" -a worlds= -d 'Stop after that many steps of the search, or after that many worlds'
complete -c euler_align -n "__fish_seen_subcommand_from align" -a '(__euler_align_files token)' -d 'Where a limit stops the listing, write to this file where to go on'
complete -c euler_align -n "__fish_seen_subcommand_from align" -a '(__euler_align_files resume)' -d 'Go on where the token in this file says'
complete -c euler_align -n "__fish_seen_subcommand_from check" -a '(__euler_align_files in)' -d 'The problem'
complete -c euler_align -n "__fish_seen_subcommand_from check" -a '(__euler_align_files cert)' -d 'The certificate'
complete -c euler_align -n "__fish_seen_subcommand_from check" -a 'nonempty=on nonempty=off' -d 'Three rules, each on (the default) or off'
complete -c euler_align -n "__fish_seen_subcommand_from check" -a 'sibling=on sibling=off' -d 'Three rules, each on (the default) or off'
complete -c euler_align -n "__fish_seen_subcommand_from check" -a 'coverage=on coverage=off' -d 'Three rules, each on (the default) or off'
complete -c euler_align -n "__fish_seen_subcommand_from mir" -a '(__euler_align_files in)' -d 'The problem'
complete -c euler_align -n "__fish_seen_subcommand_from mir" -a '(__euler_align_files cert)' -d 'The certificate'
complete -c euler_align -n "__fish_seen_subcommand_from mir" -a 'nonempty=on nonempty=off' -d 'Three rules, each on (the default) or off'
complete -c euler_align -n "__fish_seen_subcommand_from mir" -a 'sibling=on sibling=off' -d 'Three rules, each on (the default) or off'
complete -c euler_align -n "__fish_seen_subcommand_from mir" -a 'coverage=on coverage=off' -d 'Three rules, each on (the default) or off'
complete -c euler_align -n "__fish_seen_subcommand_from conflict" -a '(__euler_align_files in)' -d 'The problem'
complete -c euler_align -n "__fish_seen_subcommand_from conflict" -a '(__euler_align_files cert)' -d 'The certificate'
complete -c euler_align -n "__fish_seen_subcommand_from conflict" -a 'nonempty=on nonempty=off' -d 'Three rules, each on (the default) or off'
complete -c euler_align -n "__fish_seen_subcommand_from conflict" -a 'sibling=on sibling=off' -d 'Three rules, each on (the default) or off'
complete -c euler_align -n "__fish_seen_subcommand_from conflict" -a 'coverage=on coverage=off' -d 'Three rules, each on (the default) or off'
complete -c euler_align -n "__fish_seen_subcommand_from lattice" -a '(__euler_align_files in)' -d 'The problem'
complete -c euler_align -n "__fish_seen_subcommand_from lattice" -a '(__euler_align_files cert)' -d 'The certificate'
complete -c euler_align -n "__fish_seen_subcommand_from lattice" -a 'nonempty=on nonempty=off' -d 'Three rules, each on (the default) or off'
complete -c euler_align -n "__fish_seen_subcommand_from lattice" -a 'sibling=on sibling=off' -d 'Three rules, each on (the default) or off'
complete -c euler_align -n "__fish_seen_subcommand_from lattice" -a 'coverage=on coverage=off' -d 'Three rules, each on (the default) or off'
complete -c euler_align -n "__fish_seen_subcommand_from explain" -a '(__euler_align_files in)' -d 'The problem'
complete -c euler_align -n "__fish_seen_subcommand_from explain" -a left= -d 'The two concepts, each as TAXONOMY.CONCEPT'
complete -c euler_align -n "__fish_seen_subcommand_from explain" -a right= -d 'The two concepts, each as TAXONOMY.CONCEPT'
complete -c euler_align -n "__fish_seen_subcommand_from explain" -a set= -d 'Relations of left to right, as letters'
complete -c euler_align -n "__fish_seen_subcommand_from explain" -a 'nonempty=on nonempty=off' -d 'Three rules, each on (the default) or off'
complete -c euler_align -n "__fish_seen_subcommand_from explain" -a 'sibling=on sibling=off' -d 'Three rules, each on (the default) or off'
complete -c euler_align -n "__fish_seen_subcommand_from explain" -a 'coverage=on coverage=off' -d 'Three rules, each on (the default) or off'
complete -c euler_align -n "__fish_seen_subcommand_from report" -a '(__euler_align_files in)' -d 'The problem'
complete -c euler_align -n "__fish_seen_subcommand_from report" -a '(__euler_align_list kinds count tally seen merge json)' -d 'count (how many worlds), tally (how often each pair has each relation), seen (which relations it has), merge (the merged classifications) or json (the same as JSON)'
complete -c euler_align -n "__fish_seen_subcommand_from report" -a 'nonempty=on nonempty=off' -d 'Three rules, each on (the default) or off'
complete -c euler_align -n "__fish_seen_subcommand_from report" -a 'sibling=on sibling=off' -d 'Three rules, each on (the default) or off'
complete -c euler_align -n "__fish_seen_subcommand_from report" -a 'coverage=on coverage=off' -d 'Three rules, each on (the default) or off'
complete -c euler_align -n "__fish_seen_subcommand_from parts" -a '(__euler_align_files in)' -d 'The problem'
complete -c euler_align -n "__fish_seen_subcommand_from parts" -a count= -d 'How many parts there are to be at the least, from 1 to 1000'
complete -c euler_align -n "__fish_seen_subcommand_from parts" -a '(__euler_align_files token)' -d 'Where a limit stops the listing, write to this file where to go on'
complete -c euler_align -n "__fish_seen_subcommand_from parts" -a 'nonempty=on nonempty=off' -d 'Three rules, each on (the default) or off'
complete -c euler_align -n "__fish_seen_subcommand_from parts" -a 'sibling=on sibling=off' -d 'Three rules, each on (the default) or off'
complete -c euler_align -n "__fish_seen_subcommand_from parts" -a 'coverage=on coverage=off' -d 'Three rules, each on (the default) or off'
complete -c euler_align -n "__fish_seen_subcommand_from part" -a '(__euler_align_files in)' -d 'The problem'
complete -c euler_align -n "__fish_seen_subcommand_from part" -a '(__euler_align_files cert)' -d 'The certificate'
complete -c euler_align -n "__fish_seen_subcommand_from part" -a 'nonempty=on nonempty=off' -d 'Three rules, each on (the default) or off'
complete -c euler_align -n "__fish_seen_subcommand_from part" -a 'sibling=on sibling=off' -d 'Three rules, each on (the default) or off'
complete -c euler_align -n "__fish_seen_subcommand_from part" -a 'coverage=on coverage=off' -d 'Three rules, each on (the default) or off'
complete -c euler_align -n "__fish_seen_subcommand_from part" -a '(__euler_align_files resume)' -d 'Go on where the token in this file says'
complete -c euler_align -n "__fish_seen_subcommand_from part" -a '(__euler_align_files until)' -d 'Stop where the token in this file says'
complete -c euler_align -n "__fish_seen_subcommand_from join" -a '(__euler_align_files in)' -d 'The problem'
complete -c euler_align -n "__fish_seen_subcommand_from join" -a '(__euler_align_files certs several)' -d 'The certificates of all parts, in any order'
complete -c euler_align -n "__fish_seen_subcommand_from join" -a 'nonempty=on nonempty=off' -d 'Three rules, each on (the default) or off'
complete -c euler_align -n "__fish_seen_subcommand_from join" -a 'sibling=on sibling=off' -d 'Three rules, each on (the default) or off'
complete -c euler_align -n "__fish_seen_subcommand_from join" -a 'coverage=on coverage=off' -d 'Three rules, each on (the default) or off'
complete -c euler_align -n "__fish_seen_subcommand_from trial" -a seed= -d 'The seed is a number, and the size an even number from 14 to 256'
complete -c euler_align -n "__fish_seen_subcommand_from trial" -a size= -d 'The seed is a number, and the size an even number from 14 to 256'
