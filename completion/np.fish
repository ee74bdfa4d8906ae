# Completion of np and kubectl-np for fish. kubectl's own completion asks kubectl_complete-np for `kubectl np`.

function __np_complete --argument-names program
    set -l typed (commandline -ct)
    # The word that is typed may have the first of its two quotes.
    set -l plain (string replace -r '^["\']' '' -- $typed | string replace -ra '\\\\(.)' '$1')
    set -l words (commandline -opc)[2..-1]
    set -l offered (kubectl_complete-np --program $program $words "$plain" 2>/dev/null)
    string match -v -- ':*' $offered
    if test "$offered[-1]" = :0
        # The name of a file may stand behind --option= too.
        set -l option (string match -r '^--[a-z]+=' -- $typed)
        for file in (complete -C "'' "(string replace -- "$option" '' $typed))
            printf '%s\n' "$option$file"
        end
    end
end
complete -c np -f -a '(__np_complete np)'
complete -c kubectl-np -f -a '(__np_complete kubectl-np)'
