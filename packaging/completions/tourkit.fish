# Completion for tourkit in fish. By default, fish offers files.

complete -c tourkit -s h -l help -d 'Print help'
complete -c tourkit -n __fish_use_subcommand -s V -l version -d 'Print version'
complete -c tourkit -n __fish_use_subcommand -l completions -x -a 'bash zsh fish' -d 'print the completions for a shell'
complete -c tourkit -n __fish_use_subcommand -f -a check -d 'Checks tours and prints their lengths'
complete -c tourkit -n __fish_use_subcommand -f -a checksol -d 'Checks the routes of a CVRP and their cost'
complete -c tourkit -n __fish_use_subcommand -f -a explain -d 'Explains a fault, or what is wrong with a file'
complete -c tourkit -n __fish_use_subcommand -f -a info -d 'Prints what is known of a problem'
complete -c tourkit -n __fish_use_subcommand -f -a matrix -d 'Prints a problem as a TSP with explicit weights'
complete -c tourkit -n __fish_use_subcommand -f -a near -d 'Prints the nearest neighbours of each city'
complete -c tourkit -n __fish_use_subcommand -f -a plot -d 'Draws a problem, and a tour or routes of it, as SVG or HTML'
complete -c tourkit -n __fish_use_subcommand -f -a solve -d 'Searches for a short tour or for short routes'
complete -c tourkit -n __fish_use_subcommand -f -a help -d 'Print this message or the help of the given subcommand(s)'

complete -c tourkit -n '__fish_seen_subcommand_from check' -l json -d 'print one JSON object for each file instead of text'

complete -c tourkit -n '__fish_seen_subcommand_from checksol' -l json -d 'print one JSON object for each file instead of text'

complete -c tourkit -n '__fish_seen_subcommand_from explain; and __fish_is_nth_token 2' -d fault \
    -a 'UnknownKeyword Repeated Missing Unsupported BadNumber OutOfLimit BadNode NotSymmetric Truncated TrailingData
        BadDepot DemandOverCapacity TooLong Read NoMemory UnknownKey RepeatedKey BadValue MissingProblem DollarInName
        WrongCount OutOfRange RepeatedCity BadCustomer ServedTwice OverCapacity NotServed WrongCost'
complete -c tourkit -n '__fish_seen_subcommand_from explain; and __fish_is_nth_token 3' -f

complete -c tourkit -n '__fish_seen_subcommand_from info' -l json -d 'print one JSON object instead of text'

complete -c tourkit -n '__fish_seen_subcommand_from matrix; and __fish_is_nth_token 3' -f \
    -a 'FULL_MATRIX UPPER_ROW LOWER_ROW UPPER_DIAG_ROW LOWER_DIAG_ROW UPPER_COL LOWER_COL UPPER_DIAG_COL LOWER_DIAG_COL'
complete -c tourkit -n '__fish_seen_subcommand_from matrix' -l json -d 'print one JSON object instead of text'

complete -c tourkit -n '__fish_seen_subcommand_from near' -s k -x -d 'length of each list, 1 to 100'
complete -c tourkit -n '__fish_seen_subcommand_from near' -l json -d 'print one JSON object instead of text'

complete -c tourkit -n '__fish_seen_subcommand_from plot' -l html -d 'print an HTML page instead of an SVG picture'
complete -c tourkit -n '__fish_seen_subcommand_from plot' -l names -r -F \
    -d "show the names in column 'name' of the CSV file FILE on the page"

complete -c tourkit -n '__fish_seen_subcommand_from solve' -s o -l output -r -F \
    -d 'write the best tour, or the routes of a CVRP, to FILE'
complete -c tourkit -n '__fish_seen_subcommand_from solve' -l trials -x -d 'trials per run, 1 to 1,000,000'
complete -c tourkit -n '__fish_seen_subcommand_from solve' -l seconds -x \
    -d 'begin no trial after N seconds, 1 to 1,000,000'
complete -c tourkit -n '__fish_seen_subcommand_from solve' -l candidates -x \
    -d 'length of the near lists, 1 to 100'
complete -c tourkit -n '__fish_seen_subcommand_from solve' -l runs -x -d 'number of runs, 1 to 10,000'
complete -c tourkit -n '__fish_seen_subcommand_from solve' -l seed -x -d 'seed of the random numbers'
complete -c tourkit -n '__fish_seen_subcommand_from solve' -l or-segment -x -a '1 2 3' \
    -d 'longest segment that an Or-opt move moves, 1 to 3'
complete -c tourkit -n '__fish_seen_subcommand_from solve' -l construction -x -a 'nearest savings' \
    -d 'how to construct the starting tours (TSP only)'
complete -c tourkit -n '__fish_seen_subcommand_from solve' -l final-sweep \
    -d 'continue each trial until no city has an improving move'
complete -c tourkit -n '__fish_seen_subcommand_from solve' -l initial-tour -r -F \
    -d 'start every run from this tour, or - for standard input (TSP only)'
complete -c tourkit -n '__fish_seen_subcommand_from solve' -l initial-solution -r -F \
    -d 'start every run from these routes, or - for standard input (CVRP only)'
complete -c tourkit -n '__fish_seen_subcommand_from solve' -l vehicles -x \
    -d 'exit with status 1 if the best solution has more routes than N (CVRP only)'
complete -c tourkit -n '__fish_seen_subcommand_from solve' -l within-routes \
    -d 'move no customers between routes, as with PARAMETERS (CVRP only)'
complete -c tourkit -n '__fish_seen_subcommand_from solve' -l progress \
    -d 'write each run\'s line to standard error when the run ends'
complete -c tourkit -n '__fish_seen_subcommand_from solve' -l log -r -F \
    -d 'append a JSON object to FILE for each improvement of a run'
complete -c tourkit -n '__fish_seen_subcommand_from solve' -l json -d 'print one JSON object instead of text'

complete -c tourkit -n '__fish_seen_subcommand_from help' -f -a 'check checksol explain info matrix near plot solve help'
