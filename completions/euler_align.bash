# Completion for bash, made from completions/keys.txt by completions/generate: source it, or put it where bash-completion looks for it.

_euler_align() {
  local current=${COMP_WORDS[COMP_CWORD]} command=${COMP_WORDS[1]} keys word
  # bash parts words at =, so that `in=FILE` is three of them
  if [[ $current == = ]]; then
    word=${COMP_WORDS[COMP_CWORD - 1]}= current=
  elif ((COMP_CWORD > 1)) && [[ ${COMP_WORDS[COMP_CWORD - 1]} == = ]]; then
    word=${COMP_WORDS[COMP_CWORD - 2]}=
  elif ((COMP_CWORD == 1)); then
    mapfile -t COMPREPLY < <(compgen -W "align check mir conflict lattice explain report parts part join trial" -- "$current")
    return
  else
    case $command in
      align) keys="in= cert= nonempty= sibling= coverage= nodes= worlds= token= resume=" ;;
      check) keys="in= cert= nonempty= sibling= coverage=" ;;
      mir) keys="in= cert= nonempty= sibling= coverage=" ;;
      conflict) keys="in= cert= nonempty= sibling= coverage=" ;;
      lattice) keys="in= cert= nonempty= sibling= coverage=" ;;
      explain) keys="in= left= right= set= nonempty= sibling= coverage=" ;;
      report) keys="in= kinds= nonempty= sibling= coverage=" ;;
      parts) keys="in= count= token= nonempty= sibling= coverage=" ;;
      part) keys="in= cert= nonempty= sibling= coverage= resume= until=" ;;
      join) keys="in= certs= nonempty= sibling= coverage=" ;;
      trial) keys="seed= size=" ;;
    esac
    mapfile -t COMPREPLY < <(compgen -W "$keys" -- "$current")
    compopt -o nospace
    return
  fi
  case $word in
    in= | cert= | token= | resume= | until=)
      mapfile -t COMPREPLY < <(compgen -f -- "$current")
      compopt -o filenames
      ;;
    nonempty=) mapfile -t COMPREPLY < <(compgen -W "on off" -- "$current") ;;
    sibling=) mapfile -t COMPREPLY < <(compgen -W "on off" -- "$current") ;;
    coverage=) mapfile -t COMPREPLY < <(compgen -W "on off" -- "$current") ;;
    kinds=)
      # what stands before the last comma stays
      local before=
      [[ $current == *,* ]] && before=${current%,*},
      mapfile -t COMPREPLY < <(compgen -P "$before" -W "count tally seen merge json" -- "${current##*,}")
      ;;
    certs=)
      # what stands before the last comma stays
      local before=
      [[ $current == *,* ]] && before=${current%,*},
      mapfile -t COMPREPLY < <(compgen -P "$before" -f -- "${current##*,}")
      ;;
  esac
}

complete -F _euler_align euler_align
