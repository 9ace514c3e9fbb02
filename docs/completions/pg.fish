# Completions of pg for fish; made by bench/program/completions.sh.

# Whether the command is $argv[1].
function __pg_is
    set -l before (commandline -opc)
    test (count $before) -ge 2; and test "$before[2]" = $argv[1]
end

# Whether the word at the cursor is the one at place $argv[2] behind the command $argv[1]; of the options behind those each
# has a value.
function __pg_is_at
    __pg_is $argv[1]; or return 1
    set -l before (commandline -opc)
    set -e before[1..2]
    set -l place 1
    set -l passes 0
    for word in $before
        if test $passes = 1
            set passes 0
        else if contains -- $word $argv[3..]
            set passes 1
        else if not string match -qr -- "^(--.*|-[a-zA-Z])\$" $word
            set place (math $place + 1)
        end
    end
    test $passes = 0 -a $place = $argv[2]
end

complete -c pg -f
complete -c pg -n '__fish_use_subcommand' -l hints -d 'Says what may help, as on a terminal'
complete -c pg -n '__fish_use_subcommand' -s h -l help -d 'Print help'
complete -c pg -n '__fish_use_subcommand' -s V -l version -d 'Print version'
complete -c pg -n __fish_use_subcommand -a solve -d 'Says of one problem whether it is sound, with the games'
complete -c pg -n __fish_use_subcommand -a show -d 'Prints the board of a diagram, and what is known of it at once'
complete -c pg -n __fish_use_subcommand -a moves -d 'Prints the legal moves of a position, one a line'
complete -c pg -n __fish_use_subcommand -a count -d 'Prints the number of games of so many plies from a position'
complete -c pg -n __fish_use_subcommand -a games -d 'Prints what a list of games shows by itself'
complete -c pg -n __fish_use_subcommand -a cooks -d 'Looks for another game, or a shorter one, near the games of a list'
complete -c pg -n __fish_use_subcommand -a check -d 'Checks a certificate against a list of games, and prints the report'
complete -c pg -n __fish_use_subcommand -a answer -d 'Checks a certificate by itself, and prints the report of its games'
complete -c pg -n __fish_use_subcommand -a search -d 'Searches for the games, writes a certificate, checks it, and reports'
complete -c pg -n __fish_use_subcommand -a judge -d 'Judges the problems of a file, one after the other, a row for each'
complete -c pg -n __fish_use_subcommand -a why -d 'Explains a line of moves by a certificate'
complete -c pg -n __fish_use_subcommand -a page -d 'Writes a page of HTML that shows a certificate'
complete -c pg -n __fish_use_subcommand -a upgrade -d 'Copies a certificate of version 1 as one of version 2'
complete -c pg -n __fish_use_subcommand -a pgn -d 'Prints the games of a file in PGN as a list, one a line'
complete -c pg -n __fish_use_subcommand -a end -d 'Prints the diagram, the length and the FEN at the end of games'
complete -c pg -n __fish_use_subcommand -a help -d 'Print this message or the help of the given subcommand(s)'
complete -c pg -n '__pg_is solve' -l game -x -d 'The author\'s game, as one word'
complete -c pg -n '__pg_is solve' -l games -r -F -d 'The author\'s games, one a line; -: standard input'
complete -c pg -n '__pg_is solve' -l keep -r -F -d 'Keeps the certificate that settles the problem'
complete -c pg -n '__pg_is solve' -l all -d 'Goes on where two games are known, to find all'
complete -c pg -n '__pg_is solve' -l nodes -x -d 'The last limit of a search [default: 100000000]'
complete -c pg -n '__pg_is solve' -l minutes -x -d 'Gives up after M minutes, as 5 or 0.5, or 90s or 2h'
complete -c pg -n '__pg_is solve' -l bytes -x -d 'Gives up before CERT is longer [default: 4000000000]'
complete -c pg -n '__pg_is solve' -l pgn -d 'Prints the games as PGN, in place of the report'
complete -c pg -n '__pg_is solve' -l journeys -d 'Changes nothing: journeys are asked always'
complete -c pg -n '__pg_is solve' -s h -l help -d 'Print help'
complete -c pg -n '__pg_is show' -s h -l help -d 'Print help'
complete -c pg -n '__pg_is moves' -s h -l help -d 'Print help'
complete -c pg -n '__pg_is count' -s h -l help -d 'Print help'
complete -c pg -n '__pg_is games' -l pgn -d 'Prints the games as PGN, in place of the report'
complete -c pg -n '__pg_is games' -s h -l help -d 'Print help'
complete -c pg -n '__pg_is_at games 3' -F
complete -c pg -n '__pg_is cooks' -l nodes -x -d 'Gives up where more would be visited [default: 10000000]'
complete -c pg -n '__pg_is cooks' -l minutes -x -d 'Gives up after M minutes, as 5 or 0.5, or 90s or 2h'
complete -c pg -n '__pg_is cooks' -l foreign -x -d 'The most foreign moves, the last two plies apart'
complete -c pg -n '__pg_is cooks' -s h -l help -d 'Print help'
complete -c pg -n '__pg_is_at cooks 3 --nodes --minutes --foreign' -F
complete -c pg -n '__pg_is check' -l records -x -d 'Refuses a certificate of more records [default: 100000000]'
complete -c pg -n '__pg_is check' -l journeys -d 'Takes cuts by the bound by journeys too'
complete -c pg -n '__pg_is check' -l tolls -d 'Takes cuts by journeys and by the tariffs of CERT too'
complete -c pg -n '__pg_is check' -l pgn -d 'Prints the games as PGN, in place of the report'
complete -c pg -n '__pg_is check' -s h -l help -d 'Print help'
complete -c pg -n '__pg_is_at check 3 --records' -F
complete -c pg -n '__pg_is_at check 4 --records' -F
complete -c pg -n '__pg_is answer' -l records -x -d 'Refuses a certificate of more records [default: 100000000]'
complete -c pg -n '__pg_is answer' -l pgn -d 'Prints the games as PGN, in place of the report'
complete -c pg -n '__pg_is answer' -l journeys -d 'Changes nothing: journeys are asked always'
complete -c pg -n '__pg_is answer' -s h -l help -d 'Print help'
complete -c pg -n '__pg_is_at answer 1 --records' -F
complete -c pg -n '__pg_is search' -l nodes -x -d 'Gives up before more nodes are visited [default: 1000000]'
complete -c pg -n '__pg_is search' -l minutes -x -d 'Gives up after M minutes, as 5 or 0.5, or 90s or 2h'
complete -c pg -n '__pg_is search' -l bytes -x -d 'Gives up before CERT is longer [default: 4000000000]'
complete -c pg -n '__pg_is search' -l games -r -F -d 'Keeps the games that it met, if any, also if it gives up'
complete -c pg -n '__pg_is search' -l journeys -d 'Cuts by the bound by journeys too: far fewer nodes'
complete -c pg -n '__pg_is search' -l tolls -d 'Cuts by journeys and by tolls, whose tariffs go into CERT'
complete -c pg -n '__pg_is search' -l no-journeys -d 'With --tolls: no journeys; more nodes, often in less time'
complete -c pg -n '__pg_is search' -s h -l help -d 'Print help'
complete -c pg -n '__pg_is_at search 3 --nodes --minutes --bytes --games' -F
complete -c pg -n '__pg_is judge' -l certificates -r -F -d 'Keeps each certificate as FOLDER/NAME.pgc'
complete -c pg -n '__pg_is judge' -l replace -d 'Replaces certificates of other problems too'
complete -c pg -n '__pg_is judge' -l pgn -d 'Writes the games as NAME.pgn beside NAME.pgc'
complete -c pg -n '__pg_is judge' -l nodes -x -d 'The last limit of a search [default: 100000000]'
complete -c pg -n '__pg_is judge' -l minutes -x -d 'Gives up a problem after M, as 5, 90s or 2h'
complete -c pg -n '__pg_is judge' -l bytes -x -d 'Most bytes of a certificate [default: 4000000000]'
complete -c pg -n '__pg_is judge' -l journeys -d 'Changes nothing: journeys are asked always'
complete -c pg -n '__pg_is judge' -s h -l help -d 'Print help'
complete -c pg -n '__pg_is_at judge 1 --certificates --nodes --minutes --bytes' -F
complete -c pg -n '__pg_is why' -l records -x -d 'Refuses a certificate of more records [default: 100000000]'
complete -c pg -n '__pg_is why' -l journeys -d 'Changes nothing: journeys are asked always'
complete -c pg -n '__pg_is why' -s h -l help -d 'Print help'
complete -c pg -n '__pg_is_at why 1 --records' -F
complete -c pg -n '__pg_is page' -l records -x -d 'Refuses a certificate of more records [default: 100000000]'
complete -c pg -n '__pg_is page' -l nodes -x -d 'The most expanded nodes that are shown [default: 3000]'
complete -c pg -n '__pg_is page' -l out -r -F -d 'Puts the page in FILE; nothing is printed then'
complete -c pg -n '__pg_is page' -l title -x -d 'The title of the page, in place of the length'
complete -c pg -n '__pg_is page' -l author -x -d 'The author of the problem, behind the title'
complete -c pg -n '__pg_is page' -l journeys -d 'Changes nothing: journeys are asked always'
complete -c pg -n '__pg_is page' -s h -l help -d 'Print help'
complete -c pg -n '__pg_is_at page 1 --records --nodes --out --title --author' -F
complete -c pg -n '__pg_is upgrade' -l records -x -d 'Refuses a certificate of more records [default: 100000000]'
complete -c pg -n '__pg_is upgrade' -s h -l help -d 'Print help'
complete -c pg -n '__pg_is_at upgrade 1 --records' -F
complete -c pg -n '__pg_is_at upgrade 2 --records' -F
complete -c pg -n '__pg_is pgn' -l letters -x -d 'german, french, dutch, spanish or italian'
complete -c pg -n '__pg_is pgn' -s h -l help -d 'Print help'
complete -c pg -n '__pg_is_at pgn 1 --letters' -F
complete -c pg -n '__pg_is end' -s h -l help -d 'Print help'
complete -c pg -n '__pg_is_at help 1' -a solve -d 'Says of one problem whether it is sound, with the games'
complete -c pg -n '__pg_is_at help 1' -a show -d 'Prints the board of a diagram, and what is known of it at once'
complete -c pg -n '__pg_is_at help 1' -a moves -d 'Prints the legal moves of a position, one a line'
complete -c pg -n '__pg_is_at help 1' -a count -d 'Prints the number of games of so many plies from a position'
complete -c pg -n '__pg_is_at help 1' -a games -d 'Prints what a list of games shows by itself'
complete -c pg -n '__pg_is_at help 1' -a cooks -d 'Looks for another game, or a shorter one, near the games of a list'
complete -c pg -n '__pg_is_at help 1' -a check -d 'Checks a certificate against a list of games, and prints the report'
complete -c pg -n '__pg_is_at help 1' -a answer -d 'Checks a certificate by itself, and prints the report of its games'
complete -c pg -n '__pg_is_at help 1' -a search -d 'Searches for the games, writes a certificate, checks it, and reports'
complete -c pg -n '__pg_is_at help 1' -a judge -d 'Judges the problems of a file, one after the other, a row for each'
complete -c pg -n '__pg_is_at help 1' -a why -d 'Explains a line of moves by a certificate'
complete -c pg -n '__pg_is_at help 1' -a page -d 'Writes a page of HTML that shows a certificate'
complete -c pg -n '__pg_is_at help 1' -a upgrade -d 'Copies a certificate of version 1 as one of version 2'
complete -c pg -n '__pg_is_at help 1' -a pgn -d 'Prints the games of a file in PGN as a list, one a line'
complete -c pg -n '__pg_is_at help 1' -a end -d 'Prints the diagram, the length and the FEN at the end of games'
complete -c pg -n '__pg_is_at help 1' -a help -d 'Print this message or the help of the given subcommand(s)'
