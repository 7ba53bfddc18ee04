# Completion of the words of aioscan and damaged_pages for bash.
_aioscan() {
  local word=${COMP_WORDS[COMP_CWORD]} before=${COMP_WORDS[COMP_CWORD - 1]} command=${COMP_WORDS[0]##*/}
  case $command:$before in
    aioscan:--method) COMPREPLY=($(compgen -W "worker sync ring" -- "$word")) && return ;;
    aioscan:--skip) COMPREPLY=($(compgen -W "visible frozen" -- "$word")) && return ;;
  esac
  compopt -o filenames 2>/dev/null
  case $command:$word in
    *:-*)
      # The options are those that the help names.
      COMPREPLY=($(compgen -W "$("${COMP_WORDS[0]}" --help 2>/dev/null | grep -oE -e '--[a-z][a-z-]+' | sort -u)" -- "$word")) ;;
    damaged_pages:*) COMPREPLY=($(compgen -d -- "$word")) ;;
    *) COMPREPLY=($(compgen -f -- "$word")) ;;
  esac
}
complete -F _aioscan aioscan damaged_pages
