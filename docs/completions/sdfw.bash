# Completions of sdfw for bash.
_sdfw() {
  local word=${COMP_WORDS[COMP_CWORD]} before=${COMP_WORDS[COMP_CWORD-1]}
  COMPREPLY=()
  if [ "$COMP_CWORD" -eq 1 ]; then
    mapfile -t COMPREPLY < <(compgen -W "run resample fir check explain kinds schedule analyze draw profile help --help --version" -- "$word")
    return
  fi
  case ${COMP_WORDS[1]}:$before in
    help:help) mapfile -t COMPREPLY < <(compgen -W "run resample fir check explain kinds schedule analyze draw profile" -- "$word"); return ;;
    run:--parallel) :; return ;;
    run:--into) compopt -o filenames; mapfile -t COMPREPLY < <(compgen -d -- "$word"); return ;;
    run:--blocking) :; return ;;
    run:--workers) :; return ;;
    run:--policy) mapfile -t COMPREPLY < <(compgen -W "round lean runs" -- "$word"); return ;;
    run:--placement) mapfile -t COMPREPLY < <(compgen -W "hu homed file spread" -- "$word"); return ;;
    run:--runner) mapfile -t COMPREPLY < <(compgen -W "one rows rings" -- "$word"); return ;;
    run:--patience) :; return ;;
    resample:--channels) :; return ;;
    resample:--pass) :; return ;;
    resample:--attenuation) :; return ;;
    fir:--rate) :; return ;;
    fir:--pass) :; return ;;
    fir:--stop) :; return ;;
    fir:--low-stop) :; return ;;
    fir:--low-pass) :; return ;;
    fir:--attenuation) :; return ;;
    fir:--up) :; return ;;
    fir:--shift) :; return ;;
    schedule:--blocking) :; return ;;
    schedule:--workers) :; return ;;
    schedule:--policy) mapfile -t COMPREPLY < <(compgen -W "round lean runs" -- "$word"); return ;;
    schedule:--placement) mapfile -t COMPREPLY < <(compgen -W "hu homed file spread" -- "$word"); return ;;
    analyze:--blocking) :; return ;;
    analyze:--workers) :; return ;;
    analyze:--policy) mapfile -t COMPREPLY < <(compgen -W "round lean runs" -- "$word"); return ;;
    analyze:--placement) mapfile -t COMPREPLY < <(compgen -W "hu homed file spread" -- "$word"); return ;;
    draw:--blocking) :; return ;;
    draw:--workers) :; return ;;
    draw:--policy) mapfile -t COMPREPLY < <(compgen -W "round lean runs" -- "$word"); return ;;
    draw:--placement) mapfile -t COMPREPLY < <(compgen -W "hu homed file spread" -- "$word"); return ;;
    profile:--write) compopt -o filenames; mapfile -t COMPREPLY < <(compgen -f -- "$word"); return ;;
  esac
  case ${COMP_WORDS[1]}:$word in
    run:-*) mapfile -t COMPREPLY < <(compgen -W "--parallel --into --open-ended --why --no-why --json --help --blocking --workers --policy --placement --runner --patience" -- "$word") ;;
    resample:-*) mapfile -t COMPREPLY < <(compgen -W "--channels --fast --pass --attenuation --why --no-why --help" -- "$word") ;;
    fir:-*) mapfile -t COMPREPLY < <(compgen -W "--rate --pass --stop --low-stop --low-pass --attenuation --up --shift --why --no-why --help" -- "$word") ;;
    fir:*) mapfile -t COMPREPLY < <(compgen -W "lowpass highpass bandpass" -- "$word") ;;
    check:-*) mapfile -t COMPREPLY < <(compgen -W "--why --no-why --json --help" -- "$word") ;;
    explain:-*) mapfile -t COMPREPLY < <(compgen -W "--help" -- "$word") ;;
    kinds:-*) mapfile -t COMPREPLY < <(compgen -W "--json --help" -- "$word") ;;
    schedule:-*) mapfile -t COMPREPLY < <(compgen -W "--blocking --workers --policy --placement --why --no-why --json --help" -- "$word") ;;
    analyze:-*) mapfile -t COMPREPLY < <(compgen -W "--blocking --workers --policy --placement --compare --why --no-why --json --help" -- "$word") ;;
    draw:-*) mapfile -t COMPREPLY < <(compgen -W "--blocking --workers --policy --placement --dot --why --no-why --help" -- "$word") ;;
    profile:-*) mapfile -t COMPREPLY < <(compgen -W "--write --why --no-why --help" -- "$word") ;;
    run:*|resample:*|check:*|schedule:*|analyze:*|draw:*|profile:*)
      compopt -o filenames
      mapfile -t COMPREPLY < <(compgen -f -- "$word")
      ;;
  esac
}
complete -F _sdfw sdfw
