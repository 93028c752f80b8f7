# Completion of ets for fish. share/check compares it with the table of `ets help`.

# Whether the command is one of these.
function __ets_is
    set -l words (commandline -opc)
    test (count $words) -ge 2; and contains -- $words[2] $argv
end

# Whether the command is one of these, which follow the name of an option that was not given yet: each may be given once.
function __ets_takes
    set -l words (commandline -opc)
    __ets_is $argv[2..]; or return 1
    for i in (seq 3 (count $words))
        string match -q -- "--$argv[1]=*" $words[$i]; and return 1
        # The last word may be an option that waits for its value.
        test $words[$i] = --$argv[1]; and contains -- $argv[1] literals code svg map quiet; and return 1
        test $words[$i] = --$argv[1] -a $i -lt (count $words); and return 1
    end
    return 0
end

# Whether no command is there yet.
function __ets_begins
    test (count (commandline -opc)) -eq 1
end

# Whether `help` waits for the name of a command.
function __ets_helps
    set -l words (commandline -opc)
    test (count $words) -eq 2; and test $words[2] = help
end

# Before a command, and after `help`, nothing names a file; after another command a word may.
complete -c ets -n '__ets_begins; or __ets_is help' -f

set -l begins '__ets_begins; or __ets_helps'
complete -c ets -n $begins -a lower -d 'lowers a program to a graph'
complete -c ets -n $begins -a run -d 'compiles and runs a graph'
complete -c ets -n $begins -a mean -d 'runs the meaning of a graph, without code'
complete -c ets -n $begins -a check -d 'says whether a graph is well formed'
complete -c ets -n $begins -a compile -d 'writes the object of a graph'
complete -c ets -n $begins -a dis -d 'lists the code of an object'
complete -c ets -n $begins -a asm -d 'writes the object of a listing'
complete -c ets -n $begins -a upgrade -d 'writes an object as version 2'
complete -c ets -n $begins -a dot -d 'draws a graph, as text for Graphviz'
complete -c ets -n $begins -a exec -d 'runs an object on the inputs that follow'
complete -c ets -n $begins -a trace -d 'runs a graph and prints its events'
complete -c ets -n $begins -a profile -d 'measures the parallelism of a graph'
complete -c ets -n $begins -a orders -d 'runs a graph in random orders'
complete -c ets -n $begins -a help -d 'prints help'

complete -c ets -n 'not __ets_is help' -s h -l help -d 'print help'
complete -c ets -n __ets_begins -s V -l version -d 'print the version'

complete -c ets -n '__ets_takes elements run exec trace orders' -l elements -x -d 'processing elements, 1 to 16'
complete -c ets -n '__ets_takes elements profile' -l elements -x -d 'numbers of processing elements, each 1 to 16'
complete -c ets -n '__ets_takes frames run' -l frames -x -d 'frames for each element, 1 to 1024' -a 'enough\t"as many as suffice in every order"'
complete -c ets -n '__ets_takes frames exec trace profile orders' -l frames -x -d 'frames for each element, 1 to 1024'
complete -c ets -n '__ets_takes steps run exec trace profile orders' -l steps -x -d 'steps that each element may make'
complete -c ets -n '__ets_takes steps mean' -l steps -x -d 'activities at most'
complete -c ets -n '__ets_takes mode run exec trace' -l mode -x -d 'how the elements take turns' -a 'one\t"in turn, in one thread" rounds\t"in rounds, a thread each" free\t"free, a thread each"'
complete -c ets -n '__ets_takes turn run exec trace' -l turn -x -d 'tokens that an element takes at once, 1 to 65536'
complete -c ets -n '__ets_takes take run exec trace profile' -l take -x -d 'which of its tokens an element takes' -a 'oldest\t"its oldest one" depth\t"requests for frames wait"'
complete -c ets -n '__ets_takes take orders' -l take -x -d 'which of its tokens an element takes' -a 'oldest\t"any one"'
complete -c ets -n '__ets_takes cells run mean orders' -l cells -x -d 'print the full cells of these arrays of a file alone' -a 'none\t"no cells"'
complete -c ets -n '__ets_takes grid run mean orders' -l grid -x -d 'print the full cells of these arrays of a file in rows'
complete -c ets -n '__ets_takes quiet run mean check compile dis dot trace profile orders lower' -l quiet -d 'no warnings of the program of a file'
complete -c ets -n '__ets_takes last trace' -l last -x -d 'only the last events'
complete -c ets -n '__ets_takes format trace' -l format -x -d 'how the trace is written' -a 'text\t"a line for each event" chrome\t"Trace Event JSON" html\t"a page that shows the run" json\t"one object, of a file"'
complete -c ets -n '__ets_takes format run mean check profile orders lower' -l format -x -d 'how the lines of a file are written' -a 'text\t"lines" json\t"one object"'
complete -c ets -n '__ets_takes svg profile' -l svg -d 'a picture in place of lines'
complete -c ets -n '__ets_takes count orders' -l count -x -d 'how many orders'
complete -c ets -n '__ets_takes seed orders' -l seed -x -d 'which orders'
complete -c ets -n '__ets_takes literals dis' -l literals -d "the object's table of literals, too"
complete -c ets -n '__ets_takes map lower' -l map -d 'in place of the graph, the places of its nodes'
complete -c ets -n '__ets_takes map compile dis' -l map -d 'in place of the code of a file, the nodes of its instructions'
complete -c ets -n '__ets_takes code dot' -l code -d 'the code of the object on standard input'
