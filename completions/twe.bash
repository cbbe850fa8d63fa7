# Completion of the words of `twe` and its companions for bash. Source this file, or let bin/install put it where bash looks for it, by the
# name of each program.

_twe() {
  local current=${COMP_WORDS[COMP_CWORD]} before=${COMP_WORDS[COMP_CWORD - 1]}
  local words='' word given
  COMPREPLY=()
  if ((COMP_CWORD == 1)); then
    words='check run replay load'
  else
    case $before in
      --workers | --fuel | --tasks | =) return ;; # a number stands here
    esac
    case ${COMP_WORDS[1]} in
      run) words='--workers --fuel --tasks --journal' ;;
      replay) words='--fuel --tasks' ;;
      load) words='--workers' ;;
    esac
    # Each option may be given once.
    for given in "${COMP_WORDS[@]:2:COMP_CWORD-2}"; do
      words=" $words "
      words=${words/ ${given%%=*} / }
    done
  fi
  for word in $words; do
    [[ $word != "$current"* ]] || COMPREPLY+=("$word")
  done
}

_twe_batch() {
  local word
  COMPREPLY=()
  ((COMP_CWORD == 1)) || return
  for word in check run; do
    [[ $word != "${COMP_WORDS[1]}"* ]] || COMPREPLY+=("$word")
  done
}

_twe_annotate() {
  local word
  COMPREPLY=()
  ((COMP_CWORD == 1)) || return
  for word in matrix write compare; do
    [[ $word != "${COMP_WORDS[1]}"* ]] || COMPREPLY+=("$word")
  done
}

_twe_advise() {
  local word
  COMPREPLY=()
  ((COMP_CWORD == 1)) || return
  for word in --json --workers; do
    [[ $word != "${COMP_WORDS[1]}"* ]] || COMPREPLY+=("$word")
  done
}

_twe_format() {
  COMPREPLY=()
  if ((COMP_CWORD == 1)) && [[ --check == "${COMP_WORDS[1]}"* ]]; then COMPREPLY=(--check); fi
}

_twe_draw() {
  local word
  COMPREPLY=()
  ((COMP_CWORD == 1)) || return
  for word in order trace; do
    [[ $word != "${COMP_WORDS[1]}"* ]] || COMPREPLY+=("$word")
  done
}

_twe_explain() {
  local current=${COMP_WORDS[COMP_CWORD]} words=' --name --lines --all --run --fuel --tasks ' word given
  COMPREPLY=()
  [[ $current == -* ]] || return
  case ${COMP_WORDS[COMP_CWORD - 1]} in
    --name | --fuel | --tasks) return ;; # a name or a number stands here
  esac
  ((COMP_CWORD > 1)) || words+='--help --version ' # these stand alone
  # Each option may be given once.
  for given in "${COMP_WORDS[@]:1:COMP_CWORD-1}"; do
    words=${words/ $given / }
  done
  for word in $words; do
    [[ $word != "$current"* ]] || COMPREPLY+=("$word")
  done
}

_twe_explore() {
  local current=${COMP_WORDS[COMP_CWORD]} words=' --states --fuel --tasks --journal --json ' word given
  COMPREPLY=()
  case ${COMP_WORDS[COMP_CWORD - 1]} in
    --*) return ;; # a number stands here
  esac
  # Each option may be given once.
  for given in "${COMP_WORDS[@]:1:COMP_CWORD-1}"; do
    words=${words/ $given / }
  done
  for word in $words; do
    [[ $word != "$current"* ]] || COMPREPLY+=("$word")
  done
}

# A command, a file, and what the command takes.
_tw() {
  local current=${COMP_WORDS[COMP_CWORD]} words='' word given
  COMPREPLY=()
  if ((COMP_CWORD == 1)) || [[ $COMP_CWORD == 2 && ${COMP_WORDS[1]} == help ]]; then
    words='check run why keep explore advise draw annotate fmt watch help'
  elif ((COMP_CWORD == 2)); then
    mapfile -t COMPREPLY < <(compgen -f -- "$current")
    return
  else
    case ${COMP_WORDS[COMP_CWORD - 1]} in
      --workers | --fuel | --tasks) return ;; # a number stands here
    esac
    case ${COMP_WORDS[1]} in
      run) words=' --workers --fuel --tasks --journal ' ;;
      why) words=' --all --run --fuel --tasks ' ;;
      explore) words=' --states --fuel --tasks --journal --json ' ;;
      fmt) words=' --check ' ;;
      keep | advise) words=' --workers --fuel --tasks ' ;;
      draw) words=' order trace --workers --fuel --tasks ' ;;
      annotate) ((COMP_CWORD > 3)) || words='write compare matrix' ;;
    esac
    # Each may be given once.
    for given in "${COMP_WORDS[@]:3:COMP_CWORD-3}"; do
      words=${words/ $given / }
    done
  fi
  for word in $words; do
    [[ $word != "$current"* ]] || COMPREPLY+=("$word")
  done
}

# A number, or no words at all.
_twe_other() {
  COMPREPLY=()
}

complete -F _twe twe
complete -o filenames -F _tw tw
complete -F _twe_batch twe_batch
complete -F _twe_advise twe_advise
complete -F _twe_format twe_format
complete -F _twe_draw twe_draw
complete -F _twe_annotate twe_annotate
complete -F _twe_explain twe_explain
complete -F _twe_explore twe_explore
complete -F _twe_other twe_infer twe_opt twe_profile
