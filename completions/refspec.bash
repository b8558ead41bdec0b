# Completion of refspec, for bash.

_refspec() {
    local word=${COMP_WORDS[COMP_CWORD]} before=${COMP_WORDS[COMP_CWORD-1]} options
    if [ "$COMP_CWORD" -eq 1 ]; then
        mapfile -t COMPREPLY < <(compgen -W "check explain canon plan stale track prefixes upstream prefetch rename why --help --version" -- "$word")
        return
    fi
    case ${COMP_WORDS[1]}$before in
    why--local) before=--ref ;;
    esac
    case $before in
    --specs | --refs | --configured | --local)
        mapfile -t COMPREPLY < <(compgen -f -- "$word")
        return
        ;;
    --ref)
        mapfile -t COMPREPLY < <(compgen -W "$(git for-each-ref --format='%(refname)' refs/remotes 2>/dev/null)" -- "$word")
        return
        ;;
    esac
    options="--specs -z --read-z --json --help"
    case ${COMP_WORDS[1]} in
    check) options="$options --push --verbose -v --config --strict --no-warnings" ;;
    explain | canon) options="$options --push" ;;
    plan) options="$options --refs --configured --merge --tags --local --long --all" ;;
    stale) options="$options --refs --local" ;;
    track) options="$options --ref" ;;
    prefixes) options="$options --patterns --push --tags --head --merge" ;;
    upstream) options="$options --merge" ;;
    why) options="$options --ref --local --refs" ;;
    esac
    mapfile -t COMPREPLY < <(compgen -W "$options" -- "$word")
}
complete -F _refspec refspec
