#compdef vc4check
# Completion for zsh, by the kind of word: a command, an option, a kind of unit, a tiling, a rule, or the name of a file. Numbers aren't
# completed.
local -a commands units rules
commands=(check replay picture upgrade bound show make gen slots queue session untile tile level asm disasm shader explain)
units=(qpu texture binner renderer)
local command=${words[2]} before=${words[CURRENT - 1]}
if (( CURRENT == 2 )); then
  compadd -- $commands help --help --version
  return
fi
case "$command $before" in
  ("help help" | "--help --help" | "-h -h") compadd -- $commands ;;
  (help* | -* | gen*) ;;
  (*" -o") _files ;;
  (*" --favour") compadd -- $units ;;
  (*" --seeds") ;;
  ("replay replay") compadd -- --header --favour --accesses --seeds --help -o ;;
  ("replay --header") compadd -- --favour --accesses --seeds ;;
  ("replay "*) compadd -- --accesses --seeds; _files ;;
  ("picture picture") compadd -- --run --help -o; _files ;;
  ("picture --run") compadd -- --favour ;;
  ("check check") compadd -- --strict --quiet --json --help -o; _files ;;
  ("check --strict") compadd -- --quiet --json; _files ;;
  ("show show") compadd -- --strict --draws --no-content --no-offsets --help -o; _files ;;
  ("show --strict") compadd -- --draws --no-content --no-offsets; _files ;;
  ("show --draws") compadd -- --no-content --no-offsets; _files ;;
  ("show --no-content") compadd -- --no-offsets; _files ;;
  ("disasm disasm") compadd -- --notes --help -o; _files ;;
  ("shader shader") compadd -- --strict --asm --help -o; _files ;;
  ("shader --strict") compadd -- --asm; _files ;;
  ("untile untile" | "tile tile") compadd -- t lt --help -o ;;
  ("untile t" | "untile lt" | "tile t" | "tile lt") compadd -- 1 2 4 8 ;;
  ("explain explain")
    rules=(${(f)"$(vc4check explain --list 2> /dev/null | sed -n 's/^\([A-Z][0-9]*\):.*/\1/p')"})
    compadd -- --list --help kind $rules ;;
  ("explain kind") compadd -- 1 2 3 4 5 ;;
  (explain*) ;;
  ("$command $command") compadd -- --help -o; _files ;;
  (*) _files ;;
esac
