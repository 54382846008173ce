# Completes the words of sfcmon in bash. Source this file, or put it as 'sfcmon' into
# ~/.local/share/bash-completion/completions.

_sfcmon() {
  local commands='check lint list why replay run debug lsp dap draw wave cover test report explain help'
  local names='TooLong NotAscii BadToken Syntax TooDeep BadDuration BadNumber Memory
    Unknown WrongType LiteralRange NotAssignable Duplicate NoInitial UnknownStep UnknownAction NotBool NotTime NoTask
    UnknownType SameLocation Limit
    UnknownVar ValueType NotInput NotForced ClockBack NotDue Yield UnknownTask UnknownProgram InstantRange
    Stopped NotRunning NotStopped NoSuchPoint TooManyPoints HistoryFull Ended AuditMismatch NoSuchCondition
    DivZero Range TwoTimed SdWhileSl SlWhileSd'
  local word=${COMP_WORDS[COMP_CWORD]} command='' i
  for ((i = 1; i < COMP_CWORD; i++)); do
    if [[ ${COMP_WORDS[i]} != -* ]]; then
      command=${COMP_WORDS[i]}
      break
    fi
  done
  COMPREPLY=()
  if [ "$command:${COMP_WORDS[COMP_CWORD-1]}" = run:--show ]; then
    COMPREPLY=(changes)
    return
  fi
  case $command:$word in
    :-*) mapfile -t COMPREPLY < <(compgen -W '-h --help -V --version' -- "$word") ;;
    :*) mapfile -t COMPREPLY < <(compgen -W "$commands" -- "$word") ;;
    help:*) mapfile -t COMPREPLY < <(compgen -W "$commands" -- "$word") ;;
    why:-*) mapfile -t COMPREPLY < <(compgen -W '-h --help --all' -- "$word") ;;
    replay:-*) mapfile -t COMPREPLY < <(compgen -W '-h --help --strict' -- "$word") ;;
    run:-*) mapfile -t COMPREPLY < <(compgen -W '-h --help --trace --history --for --forever --show --watch --at-end --timing --record --record-size' -- "$word") ;;
    debug:-*) mapfile -t COMPREPLY < <(compgen -W '-h --help --record' -- "$word") ;;
    draw:-*) mapfile -t COMPREPLY < <(compgen -W '-h --help --program --after --cover --dot' -- "$word") ;;
    wave:-*) mapfile -t COMPREPLY < <(compgen -W '-h --help --raw --svg --only --gtkw' -- "$word") ;;
    cover:-*) mapfile -t COMPREPLY < <(compgen -W '-h --help --min' -- "$word") ;;
    test:-*) mapfile -t COMPREPLY < <(compgen -W '-h --help --filter --list --tap --junit --cover --script --wave' -- "$word") ;;
    lint:-*) mapfile -t COMPREPLY < <(compgen -W '-h --help --deny --allow --limit' -- "$word") ;;
    *:-*) mapfile -t COMPREPLY < <(compgen -W '-h --help' -- "$word") ;;
    explain:*) mapfile -t COMPREPLY < <(compgen -W "$names" -- "$word") ;;
    check:* | lint:* | list:* | why:* | replay:* | run:* | debug:* | draw:* | wave:* | cover:* | test:* | report:*)
      mapfile -t COMPREPLY < <(compgen -f -- "$word")
      compopt -o filenames 2>/dev/null
      ;;
  esac
}

complete -F _sfcmon sfcmon
