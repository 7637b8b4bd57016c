# bash completion for towhipae
#
# Where `=` parts words for bash, as it does at first, a word KEY=VALUE comes in three, and what is
# completed is the value alone.
_towhipae() {
  local word=${COMP_WORDS[COMP_CWORD]} key= before
  before=${COMP_WORDS[COMP_CWORD - 1]}
  COMPREPLY=()
  if [ "$COMP_CWORD" -eq 1 ]; then
    COMPREPLY=($(compgen -W 'next previous current closest contains walk resume show --help --version' -- "$word"))
    return
  fi
  if [ "$word" = = ]; then
    key=$before word=
  elif [ "$before" = = ]; then
    key=${COMP_WORDS[COMP_CWORD - 2]}
  elif [[ $word == *=* ]]; then
    key=${word%%=*}
    [ "$key" = dir ] && COMPREPLY=($(compgen -W 'dir=fore dir=back' -- "$word"))
    return
  fi
  if [ -n "$key" ]; then
    [ "$key" = dir ] && COMPREPLY=($(compgen -W 'fore back' -- "$word"))
    return
  fi
  local keys=
  case ${COMP_WORDS[1]} in
    next | previous | current | closest | contains) keys='at= budget=' ;;
    walk) keys='from= to= dir= limit= budget=' ;;
    resume) keys='token= limit= budget=' ;;
  esac
  COMPREPLY=($(compgen -W "$keys" -- "$word"))
  compopt -o nospace 2> /dev/null
}
complete -F _towhipae towhipae
