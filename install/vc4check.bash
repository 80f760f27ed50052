# Completion for bash, by the kind of word: a command, an option, a kind of unit, a tiling, a rule, or the name of a file. Numbers aren't
# completed.
_vc4check() {
  local word=${COMP_WORDS[COMP_CWORD]} before=${COMP_WORDS[COMP_CWORD - 1]} command=${COMP_WORDS[1]} words= files=
  local commands="check replay picture upgrade bound show make gen slots queue session untile tile level asm disasm shader explain"
  if [ "$COMP_CWORD" = 1 ]; then
    mapfile -t COMPREPLY < <(compgen -W "$commands help --help --version" -- "$word")
    return
  fi
  case "$command $before" in
    "help help" | "--help --help" | "-h -h") words=$commands ;;
    help* | --* | -* | gen*) ;;
    *" -o") files=1 ;;
    *" --favour") words="qpu texture binner renderer" ;;
    *" --seeds") ;;
    "replay replay") words="--header --favour --accesses --seeds --help -o" ;;
    "replay --header") words="--favour --accesses --seeds" ;;
    "replay "*) words="--accesses --seeds" files=1 ;;
    "picture picture") words="--run --help -o" files=1 ;;
    "picture --run") words="--favour" ;;
    "check check") words="--strict --quiet --json --help -o" files=1 ;;
    "check --strict") words="--quiet --json" files=1 ;;
    "show show") words="--strict --draws --no-content --no-offsets --help -o" files=1 ;;
    "show --strict") words="--draws --no-content --no-offsets" files=1 ;;
    "show --draws") words="--no-content --no-offsets" files=1 ;;
    "show --no-content") words="--no-offsets" files=1 ;;
    "disasm disasm") words="--notes --help -o" files=1 ;;
    "shader shader") words="--strict --asm --help -o" files=1 ;;
    "shader --strict") words="--asm" files=1 ;;
    "untile untile" | "tile tile") words="t lt --help -o" ;;
    "untile t" | "untile lt" | "tile t" | "tile lt") words="1 2 4 8" ;;
    "explain explain") words="--list --help kind $(vc4check explain --list 2> /dev/null | sed -n 's/^\([A-Z][0-9]*\):.*/\1/p')" ;;
    "explain kind") words="1 2 3 4 5" ;;
    explain*) ;;
    "$command $command") words="--help -o" files=1 ;;
    *) files=1 ;;
  esac
  mapfile -t COMPREPLY < <([ -z "$words" ] || compgen -W "$words" -- "$word"; [ -z "$files" ] || compgen -f -- "$word")
}
complete -o filenames -F _vc4check vc4check
