# Completion of git refspec, for fish: read at its start, from a folder conf.d, since it adds to that of git.

# The command of git refspec among the words, if there is one.
function __fish_git_refspec_command
    for word in (commandline -opc)
        if contains -- $word check plan stale track upstream why prefixes
            echo $word
            return 0
        end
    end
    return 1
end

# Whether a command of git refspec stands among the words, and is one of these.
function __fish_git_refspec_is
    __fish_git_using_command refspec; or return 1
    contains -- (__fish_git_refspec_command) $argv
end

# Git, in the folder that a -C before refspec names.
function __fish_git_refspec_git
    set -l words (commandline -opc)
    set -l options
    if set -l number (contains -i -- refspec $words)
        test $number -gt 2; and set options $words[2..(math $number - 1)]
    end
    command git $options $argv 2>/dev/null
end

set -l any '__fish_git_using_command refspec'
set -l none '__fish_git_using_command refspec; and not __fish_git_refspec_command'
complete -c git -f -n $any
complete -c git -n $none -a check -d 'Report each value or spec that is refused'
complete -c git -n $none -a plan -d 'Tell what git fetch would write'
complete -c git -n $none -a stale -d 'List the refs here that git fetch --prune would delete'
complete -c git -n $none -a track -d 'Tell from which refs tracking refs are fetched'
complete -c git -n $none -a upstream -d 'Show which tracking refs are the upstreams of branches'
complete -c git -n $none -a why -d 'Show why git fetch takes a ref of the remote'
complete -c git -n $none -a prefixes -d 'List the ref prefixes to ask the server for'
complete -c git -n $none -l version -d 'Print the version'
complete -c git -n $any -s h -d 'Print a page'
complete -c git -n $any -l help -d 'Show the manual'
complete -c git -n $any -s z -d 'End each field with a zero byte'
complete -c git -n $any -l json -d 'Write one JSON object a line'
complete -c git -n "$any; and not __fish_git_refspec_is upstream" -l remote -x -a '(__fish_git_refspec_git remote)' -d 'The remote'
complete -c git -n '__fish_git_refspec_is check' -s v -l verbose -d 'List valid values too'
complete -c git -n '__fish_git_refspec_is check' -l push -d 'The given specs are for a push'
complete -c git -n '__fish_git_refspec_is check' -l strict -d 'Exit with status 1 for a warning too'
complete -c git -n '__fish_git_refspec_is check' -l no-warnings -d 'Report what is refused, and no warnings'
complete -c git -n '__fish_git_refspec_is plan' -l long -d 'Show each mapping with its spec'
complete -c git -n '__fish_git_refspec_is plan' -l all -d 'Tell every conflict and all that is left out'
complete -c git -n '__fish_git_refspec_is plan' -l prune -d 'List the refs that a pruning fetch would delete too'
complete -c git -n '__fish_git_refspec_is plan' -l refmap -x -d 'A spec to use instead of the fetch values'
complete -c git -n '__fish_git_refspec_is prefixes' -l patterns -d 'Write patterns for git ls-remote'
complete -c git -n '__fish_git_refspec_is prefixes' -l head -d 'Ask for HEAD too'
complete -c git -n '__fish_git_refspec_is check plan stale why prefixes' -a '(__fish_git_refspec_git remote)' -d Remote
complete -c git -n '__fish_git_refspec_is upstream' \
    -a '(__fish_git_refspec_git for-each-ref --format="%(refname:lstrip=2)" refs/heads)' -d Branch
complete -c git -n '__fish_git_refspec_is why' \
    -a '(__fish_git_refspec_git for-each-ref --format="%(refname:lstrip=3)" refs/remotes)' -d Ref
complete -c git -n '__fish_git_refspec_is track' \
    -a '(__fish_git_refspec_git for-each-ref --format="%(refname:short)" refs/remotes)' -d 'Tracking ref'
complete -c git -n '__fish_git_refspec_is track; and string match -q "refs/*" -- (commandline -ct)' \
    -a '(__fish_git_refspec_git for-each-ref --format="%(refname)")' -d Ref
