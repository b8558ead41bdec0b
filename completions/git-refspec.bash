# Completion of git refspec, for bash: Git's own completion loads this file by its name, and calls the function.

_git_refspec() {
    local number command=""
    for ((number = __git_cmd_idx + 1; number < cword; number++)); do
        case ${words[number]} in
        check | plan | stale | track | upstream | why | prefixes)
            command=${words[number]}
            break
            ;;
        esac
    done
    if [ "$prev" = --remote ]; then
        __gitcomp_nl "$(__git_remotes)"
        return
    fi
    case $command,$cur in
    ,--*) __gitcomp "--json --remote --help --version" ;;
    ,*) __gitcomp "check plan stale track upstream why prefixes" ;;
    check,--*) __gitcomp "--json --verbose --push --strict --no-warnings --remote --help" ;;
    plan,--*) __gitcomp "--json --long --all --prune --refmap --remote --help" ;;
    prefixes,--*) __gitcomp "--json --patterns --head --remote --help" ;;
    upstream,--*) __gitcomp "--json --help" ;;
    *,--*) __gitcomp "--json --remote --help" ;;
    track,*) __git_complete_refs ;;
    upstream,*) __gitcomp_nl "$(__git_heads)" ;;
    why,*)
        if [ "$prev" = why ]; then
            __gitcomp_nl "$(__git for-each-ref --format="%(refname:lstrip=3)" refs/remotes)"
        else
            __gitcomp_nl "$(__git_remotes)"
        fi
        ;;
    *) __gitcomp_nl "$(__git_remotes)" ;;
    esac
}
