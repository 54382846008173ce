# Completes the words of sfcmon in fish. Put this file into ~/.config/fish/completions.

set -l commands check lint list why replay run debug lsp dap draw wave cover test report explain help
set -l names TooLong NotAscii BadToken Syntax TooDeep BadDuration BadNumber Memory \
    Unknown WrongType LiteralRange NotAssignable Duplicate NoInitial UnknownStep UnknownAction NotBool NotTime NoTask \
    UnknownType SameLocation Limit \
    UnknownVar ValueType NotInput NotForced ClockBack NotDue Yield UnknownTask UnknownProgram InstantRange \
    Stopped NotRunning NotStopped NoSuchPoint TooManyPoints HistoryFull Ended AuditMismatch NoSuchCondition \
    DivZero Range TwoTimed SdWhileSl SlWhileSd

complete -c sfcmon -f
complete -c sfcmon -s h -l help -d 'print help'
complete -c sfcmon -n __fish_use_subcommand -s V -l version -d 'print the version'
complete -c sfcmon -n __fish_use_subcommand -a check -d 'read a chart and check its names, types and limits'
complete -c sfcmon -n __fish_use_subcommand -a list -d 'print the text of a chart anew, in one layout'
complete -c sfcmon -n __fish_use_subcommand -a why -d 'tell where the faults of a chart, a script or a file of tests are'
complete -c sfcmon -n __fish_use_subcommand -a lsp -d 'serve an editor by the Language Server Protocol'
complete -c sfcmon -n __fish_use_subcommand -a dap -d 'let an editor debug a chart by the Debug Adapter Protocol'
complete -c sfcmon -n __fish_use_subcommand -a replay -d 'play a script on a chart and print what each command answers'
complete -c sfcmon -n __fish_use_subcommand -a run -d 'run a chart in real time, with a session on standard input'
complete -c sfcmon -n __fish_use_subcommand -a debug -d 'step a chart by hand in virtual time'
complete -c sfcmon -n __fish_use_subcommand -a draw -d 'draw a chart in its graphic form, as SVG'
complete -c sfcmon -n __fish_use_subcommand -a wave -d 'print the signals of a script on a chart, for viewers of waveforms or as SVG'
complete -c sfcmon -n __fish_use_subcommand -a cover -d 'tell what scripts on a chart never reach'
complete -c sfcmon -n __fish_use_subcommand -a test -d 'run the cases of files of tests on a chart'
complete -c sfcmon -n __fish_use_subcommand -a lint -d 'tell what a chart surely or probably does wrong'
complete -c sfcmon -n __fish_use_subcommand -a report -d 'print a page that shows a chart and what came of scripts on it'
complete -c sfcmon -n __fish_use_subcommand -a explain -d 'tell what a refusal or a fault means'
complete -c sfcmon -n __fish_use_subcommand -a help -d 'print help on a command'
complete -c sfcmon -n '__fish_seen_subcommand_from why' -l all -d 'tell all faults of the chart'
complete -c sfcmon -n '__fish_seen_subcommand_from check lint list why replay run debug draw wave cover test report' -F
complete -c sfcmon -n '__fish_seen_subcommand_from replay' -l strict -d 'end with status 1 after a refused command or a fault'
complete -c sfcmon -n '__fish_seen_subcommand_from run' -l trace -x -d 'which commands have lines, a sum from 0 to 127'
complete -c sfcmon -n '__fish_seen_subcommand_from run' -l history -x -d 'how many commands may be held, 65536 to 1048576'
complete -c sfcmon -n '__fish_seen_subcommand_from run' -l for -x -d 'ends so long after the start, such as T#8h'
complete -c sfcmon -n '__fish_seen_subcommand_from run' -l show -x -a changes -d 'shows what changes'
complete -c sfcmon -n '__fish_seen_subcommand_from run' -l watch -x -d 'variables that are shown where they change'
complete -c sfcmon -n '__fish_seen_subcommand_from run' -l at-end -x -d 'NAME=VALUE, shown at a fault and at the end'
complete -c sfcmon -n '__fish_seen_subcommand_from run' -l timing -d 'tells at the end how late scans were'
complete -c sfcmon -n '__fish_seen_subcommand_from run' -l record -r -d 'write the accepted commands to a new file as they come'
complete -c sfcmon -n '__fish_seen_subcommand_from run' -l record-size -x -d 'how many bytes the file has at most, 1024 or more'
complete -c sfcmon -n '__fish_seen_subcommand_from run' -l forever -d 'goes on until a signal ends the process'
complete -c sfcmon -n '__fish_seen_subcommand_from draw' -l program -x -d 'draw this program type alone'
complete -c sfcmon -n '__fish_seen_subcommand_from draw' -l after -r -d 'draw the instances behind a script'
complete -c sfcmon -n '__fish_seen_subcommand_from draw' -l cover -r -d 'mark what a script never reaches'
complete -c sfcmon -n '__fish_seen_subcommand_from draw' -l dot -d 'for dot of Graphviz'
complete -c sfcmon -n '__fish_seen_subcommand_from wave' -l raw -d 'show the instants of the script'
complete -c sfcmon -n '__fish_seen_subcommand_from wave' -l svg -d 'print a picture in SVG'
complete -c sfcmon -n '__fish_seen_subcommand_from wave' -l only -x -d 'show these signals alone'
complete -c sfcmon -n '__fish_seen_subcommand_from debug' -l record -r -d 'write the accepted commands to a new file as they come'
complete -c sfcmon -n '__fish_seen_subcommand_from wave' -l gtkw -r -d 'write a save file of GTKWave'
complete -c sfcmon -n '__fish_seen_subcommand_from cover' -l min -x -d 'end with status 1 where less was reached, in percent'
complete -c sfcmon -n '__fish_seen_subcommand_from lint' -l deny -x -d 'end with status 1 where there is such a warning'
complete -c sfcmon -n '__fish_seen_subcommand_from lint' -l allow -x -d 'tell no such warning'
complete -c sfcmon -n '__fish_seen_subcommand_from lint' -l limit -x -d 'how many sets of active steps are looked at'
complete -c sfcmon -n '__fish_seen_subcommand_from test' -l filter -x -d 'take the cases with this in their names'
complete -c sfcmon -n '__fish_seen_subcommand_from test' -l list -d 'print the names of the cases'
complete -c sfcmon -n '__fish_seen_subcommand_from test' -l tap -d 'tell the results as the Test Anything Protocol'
complete -c sfcmon -n '__fish_seen_subcommand_from test' -l junit -r -d 'write the results as XML'
complete -c sfcmon -n '__fish_seen_subcommand_from test' -l cover -x -d 'end with status 1 where the cases reach less, in percent'
complete -c sfcmon -n '__fish_seen_subcommand_from test' -l script -r -d 'write the script of the first case that fails'
complete -c sfcmon -n '__fish_seen_subcommand_from test' -l wave -r -d 'write the signals of the first case that fails'
complete -c sfcmon -n '__fish_seen_subcommand_from explain' -a "$names"
complete -c sfcmon -n '__fish_seen_subcommand_from help' -a "$commands"
