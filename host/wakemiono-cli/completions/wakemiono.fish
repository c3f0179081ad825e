# Completion of the command wakemiono for fish.

function __wakemiono_without_command
    test (count (commandline -opc)) -eq 1
end

function __wakemiono_with
    set -l words (commandline -opc)
    test (count $words) -ge 2; and test $words[2] = $argv[1]
end

complete -c wakemiono -n __wakemiono_without_command -f
complete -c wakemiono -l help -d 'say what the program does, or more of a command'
complete -c wakemiono -n __wakemiono_without_command -l version -d 'say the version'
complete -c wakemiono -n __wakemiono_without_command -a list -d 'list the sections, and where names and branch hints lie'
complete -c wakemiono -n __wakemiono_without_command -a names -d 'list all names'
complete -c wakemiono -n __wakemiono_without_command -a name -d 'print one name'
complete -c wakemiono -n __wakemiono_without_command -a why -d 'say why a function or a local has no name'
complete -c wakemiono -n __wakemiono_without_command -a hints -d 'list all branch hints, of both editions'
complete -c wakemiono -n __wakemiono_without_command -a metadata -d 'list all code metadata, of any format'
complete -c wakemiono -n __wakemiono_without_command -a canon -d 'make the canonical form of the names, or of older hints'
complete -c wakemiono -n __wakemiono_without_command -a join -d 'join names that came apart from a module and its own'
complete -c wakemiono -n __wakemiono_without_command -a same -d 'say whether two modules have the same names'
complete -c wakemiono -n __wakemiono_without_command -a judge -d 'say whether all is accepted, canonical, and hints on branches'
complete -c wakemiono -n __wakemiono_without_command -a help -d 'say more of one command'
complete -c wakemiono -n '__wakemiono_with help' -f -a 'list names name why hints metadata canon join same judge'

complete -c wakemiono -n '__wakemiono_with list' -l json -d 'one JSON value on one line, for programs'

complete -c wakemiono -n '__wakemiono_with names' -l json -d 'one JSON value on one line, for programs'
complete -c wakemiono -n '__wakemiono_with names' -l wide -d 'ask the wider edition of names'
complete -c wakemiono -n '__wakemiono_with names' -l kind -x -a 'module function type tag local field kept table memory global element data label' -d 'only the names of a kind'
complete -c wakemiono -n '__wakemiono_with names' -l beside -r -F -d 'ask names that came apart from the module, too'

complete -c wakemiono -n '__wakemiono_with name' -l json -d 'one JSON value on one line, for programs'
complete -c wakemiono -n '__wakemiono_with name' -l wide -d 'ask the wider edition of names'
complete -c wakemiono -n '__wakemiono_with name' -l module -d 'the module\'s name'
complete -c wakemiono -n '__wakemiono_with name' -l function -x -d 'the function with an index'
complete -c wakemiono -n '__wakemiono_with name' -l local -x -d 'the local with an index in the function'
complete -c wakemiono -n '__wakemiono_with name' -l label -x -d 'the label with an index in the function, with --wide'
complete -c wakemiono -n '__wakemiono_with name' -l type -x -d 'the type with an index'
complete -c wakemiono -n '__wakemiono_with name' -l field -x -d 'the field with an index in the type'
complete -c wakemiono -n '__wakemiono_with name' -l tag -x -d 'the tag with an index'
complete -c wakemiono -n '__wakemiono_with name' -l table -x -d 'the table with an index, with --wide'
complete -c wakemiono -n '__wakemiono_with name' -l memory -x -d 'the memory with an index, with --wide'
complete -c wakemiono -n '__wakemiono_with name' -l global -x -d 'the global with an index, with --wide'
complete -c wakemiono -n '__wakemiono_with name' -l element -x -d 'the element segment with an index, with --wide'
complete -c wakemiono -n '__wakemiono_with name' -l data -x -d 'the data segment with an index, with --wide'
complete -c wakemiono -n '__wakemiono_with name' -l kept -x -d 'the subsection with an id that the edition does not know'
complete -c wakemiono -n '__wakemiono_with name' -l beside -r -F -d 'ask names that came apart from the module, too'

complete -c wakemiono -n '__wakemiono_with why' -l json -d 'one JSON value on one line, for programs'
complete -c wakemiono -n '__wakemiono_with why' -l wide -d 'ask the wider edition of names'
complete -c wakemiono -n '__wakemiono_with why' -l function -x -d 'the function with an index'
complete -c wakemiono -n '__wakemiono_with why' -l local -x -d 'the local with an index in the function'

complete -c wakemiono -n '__wakemiono_with hints' -l json -d 'one JSON value on one line, for programs'

complete -c wakemiono -n '__wakemiono_with metadata' -l json -d 'one JSON value on one line, for programs'
complete -c wakemiono -n '__wakemiono_with metadata' -l format -x -d 'only the section of a format'

complete -c wakemiono -n '__wakemiono_with canon' -l json -d 'one JSON value on one line, for programs'
complete -c wakemiono -n '__wakemiono_with canon' -l wide -d 'ask the wider edition of names'
complete -c wakemiono -n '__wakemiono_with canon' -l old-hints -d 'rewrite the hints of the older edition'
complete -c wakemiono -n '__wakemiono_with canon' -l in-module -d 'put the canonical names in place, and make the whole module'
complete -c wakemiono -n '__wakemiono_with canon' -s o -r -F -d 'write to a file; - is standard output'

complete -c wakemiono -n '__wakemiono_with join' -l json -d 'one JSON value on one line, for programs'
complete -c wakemiono -n '__wakemiono_with join' -l wide -d 'ask the wider edition of names'
complete -c wakemiono -n '__wakemiono_with join' -s o -r -F -d 'write to a file; - is standard output'

complete -c wakemiono -n '__wakemiono_with same' -l json -d 'one JSON value on one line, for programs'
complete -c wakemiono -n '__wakemiono_with same' -l wide -d 'ask the wider edition of names'
complete -c wakemiono -n '__wakemiono_with same' -l all -d 'show every difference'

complete -c wakemiono -n '__wakemiono_with judge' -l json -d 'one JSON value on one line, for programs'
complete -c wakemiono -n '__wakemiono_with judge' -l wide -d 'ask the wider edition of names'
