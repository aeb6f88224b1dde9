# Completion of replay's command line, for bash.
_replay() {
  local options='--batch --format --summary --words --strict --quiet --output --load --save --save-served --wait
    --picture --no-key --check --inspect --help --version'
  local word=${COMP_WORDS[COMP_CWORD]} before=${COMP_WORDS[COMP_CWORD - 1]}
  # --option=value comes as three words.
  if [ "$before" = = ]; then before=${COMP_WORDS[COMP_CWORD - 2]}; fi
  if [ "$word" = = ]; then word=; fi
  COMPREPLY=()
  case $before:$word in
  --format:*) mapfile -t COMPREPLY < <(compgen -W 'plain named both csv json' -- "$word") ;;
  --batch:*) ;;
  --load:* | --save:* | --picture:* | --inspect:* | --output:* | -o:* | *:[!-]* | *:)
    mapfile -t COMPREPLY < <(compgen -f -- "$word") ;;
  *) mapfile -t COMPREPLY < <(compgen -W "$options" -- "$word") ;;
  esac
}
complete -o filenames -F _replay replay
