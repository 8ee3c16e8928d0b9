# Completes the words of polcert and of its scripts in bash: a command, then its option and files.
_polcert() {
  local word=${COMP_WORDS[COMP_CWORD]} words
  case $COMP_CWORD:${COMP_WORDS[1]} in
    1:*) words='model print check lower raise help --help --version' ;;
    *:check) words='--at-most --help' ;;
    *:help) words='model print check lower raise' ;;
    *) words='--help' ;;
  esac
  if [ "$COMP_CWORD" -gt 1 ] && [[ $word != -* ]] && [ "${COMP_WORDS[1]}" != help ]; then
    COMPREPLY=()
    return
  fi
  mapfile -t COMPREPLY < <(compgen -W "$words" -- "$word")
}

_polcert_bound() {
  local word=${COMP_WORDS[COMP_CWORD]} words='--help'
  case $COMP_CWORD:${COMP_WORDS[1]} in
    1:*) words='check raise help --help --version' ;;
    *:help) words='check raise' ;;
  esac
  if [ "$COMP_CWORD" -gt 1 ] && [[ $word != -* ]] && [ "${COMP_WORDS[1]}" != help ]; then
    COMPREPLY=()
    return
  fi
  mapfile -t COMPREPLY < <(compgen -W "$words" -- "$word")
}

_polcert_robust() {
  local word=${COMP_WORDS[COMP_CWORD]} words='check lower raise'
  case $COMP_CWORD:${COMP_WORDS[1]} in
    1:*) words='check lower raise help --help --version' ;;
    *:check) words='--within --percent --rewards-within --at-most --help' ;;
    *:lower | *:raise) words='--within --percent --rewards-within --help' ;;
  esac
  if [ "$COMP_CWORD" -gt 1 ] && [[ $word != -* ]] && [ "${COMP_WORDS[1]}" != help ]; then
    COMPREPLY=()
    return
  fi
  mapfile -t COMPREPLY < <(compgen -W "$words" -- "$word")
}
complete -o bashdefault -o default -F _polcert polcert
complete -o bashdefault -o default -F _polcert_bound polcert_bound
complete -o bashdefault -o default -F _polcert_robust polcert_robust
# tools/command-pages writes what follows.
_polcert_command() {
  local word=${COMP_WORDS[COMP_CWORD]} words
  case ${1##*/} in
    polcert-bound-vectors) words='-o --output --tolerance --rounds -h --help -V --version' ;;
    polcert-certify) words='-o --output --costs --seconds --gap --within --near --json --programs -q --quiet -h --help -V --version' ;;
    polcert-convert) words='-o --output --json -h --help -V --version' ;;
    polcert-evaluate) words='-o --output --within --percent --rewards-within --at-most -h --help -V --version' ;;
    polcert-graph) words='-o --output --nodes --beliefs --points --rounds --costs --own-vectors --within --tries --dot --json -q --quiet -h --help -V --version' ;;
    polcert-locate) words='--json -h --help -V --version' ;;
    polcert-mend) words='-o --output -q --quiet --within --json -h --help -V --version' ;;
    polcert-points) words='-o --output --seconds --gap --points --json -q --quiet -h --help -V --version' ;;
    polcert-report) words='--bound -o --output --json --html --program -h --help -V --version' ;;
    polcert-solve) words='-o --output --seconds --gap --json -q --quiet -h --help -V --version' ;;
  esac
  COMPREPLY=()
  [[ $word != -* ]] || mapfile -t COMPREPLY < <(compgen -W "$words" -- "$word")
}
complete -o bashdefault -o default -F _polcert_command polcert-bound-vectors polcert-certify polcert-convert polcert-evaluate polcert-graph polcert-locate polcert-mend polcert-points polcert-report polcert-solve
