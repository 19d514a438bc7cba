# Completion for fish, made from completions/keys.txt by completions/generate: put it into ~/.config/fish/completions.

function __euler_desk_files
    # where there may be several, what stands before the last comma stays
    set -l word (commandline -ct)
    set -l several
    test (count $argv) -gt 1; and set several "(?:.*,)?"
    set -l before (string match -r "^$argv[1]=$several" -- $word)
    if test -n "$before"
        for file in (__fish_complete_path (string replace "$before" "" -- $word))
            echo $before$file
        end
    else
        echo "$argv[1]="
    end
end

complete -c euler_desk -f
complete -c euler_desk -a '(__euler_desk_files in)' -d 'The problem'
complete -c euler_desk -a '(__euler_desk_files script)' -d 'The script'
complete -c euler_desk -a 'nonempty=on nonempty=off' -d 'Three rules, each on (the default) or off'
complete -c euler_desk -a 'sibling=on sibling=off' -d 'Three rules, each on (the default) or off'
complete -c euler_desk -a 'coverage=on coverage=off' -d 'Three rules, each on (the default) or off'
