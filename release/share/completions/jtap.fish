# Completes the words of jtap in fish. Made by release/share/write.

# The paths of the classes and tests in the scripts of the command, or in those of this folder.
function __jtap_paths
    set -l words (commandline -opc)
    set -l scripts (string match -- '*.jtap' $words)
    test -n "$scripts"; or set scripts *.jtap
    $words[1] plan $scripts 2>/dev/null </dev/null | awk 'NR > 1 { print $NF }'
end

complete -c jtap -f
complete -c jtap -n '__fish_seen_subcommand_from run plan replay check affected' -a '(__fish_complete_suffix .jtap)'
complete -c jtap -s h -l help -d 'Print help'
complete -c jtap -n __fish_use_subcommand -s V -l version -d 'Print version'
complete -c jtap -n __fish_use_subcommand -f -a run -d 'Run scripts, and write their report in TAP 14 to standard output'
complete -c jtap -n __fish_use_subcommand -f -a plan -d 'Print how scripts would run: workers, and each node\'s mode and locks'
complete -c jtap -n __fish_use_subcommand -f -a replay -d 'Replay a recorded schedule, and write the report as run does'
complete -c jtap -n __fish_use_subcommand -f -a check -d 'Tell on standard error what is wrong with each file, and run nothing'
complete -c jtap -n __fish_use_subcommand -f -a affected -d 'Print which classes and tests a change can alter, and why'
complete -c jtap -n __fish_use_subcommand -f -a settings -d 'Print what settings come to: each key\'s value, and how many workers'
complete -c jtap -n '__fish_seen_subcommand_from run' -l serial -d 'Run every class and test in order on one thread'
complete -c jtap -n '__fish_seen_subcommand_from plan' -l tests -d 'Print the lines of tests alone'
complete -c jtap -n '__fish_seen_subcommand_from plan' -l places -d 'Add to each line where the name stands, as FILE:LINE:COLUMN'
complete -c jtap -n '__fish_seen_subcommand_from plan' -l why -d 'Tell below each line what gave the mode, and which nodes gave each lock'
complete -c jtap -n '__fish_seen_subcommand_from plan' -l conflicts -d 'Print who takes each key, and how many tests wait for one another, in place of nodes'
complete -c jtap -n '__fish_seen_subcommand_from replay' -l schedule -r -F -d 'Events to replay, one a line'
complete -c jtap -n '__fish_seen_subcommand_from affected' -l old -x -a '(__fish_complete_directories)' -d 'Folder of the older state, below which each SCRIPT and the world stand by the same names'
complete -c jtap -n '__fish_seen_subcommand_from affected' -l paths -d 'Print the paths of changed and new classes and tests alone, one a line, for --only-from'
complete -c jtap -n '__fish_seen_subcommand_from run plan replay check settings' -l settings -x -a '(__fish_complete_suffix .toml)' -d 'Settings in TOML, by JUnit\'s keys [default: none set]'
complete -c jtap -n '__fish_seen_subcommand_from run plan replay check affected' -l world -x -a '(__fish_complete_suffix .toml)' -d 'Starting values, in TOML [default: none set]'
complete -c jtap -n '__fish_seen_subcommand_from run plan replay check settings' -l processors -x -a 'auto' -d 'Processors to count with, 1 to 1024, or auto for those of the machine [default: 1]'
complete -c jtap -n '__fish_seen_subcommand_from run plan replay check' -l only -x -a '(__jtap_paths)' -d 'Class or test to keep, with all in it, by its path as jtap plan prints it; may be repeated [default: all]'
complete -c jtap -n '__fish_seen_subcommand_from run plan replay check' -l match -x -d 'Keep each class or test whose whole path this matches, where * stands for any bytes; may be repeated'
complete -c jtap -n '__fish_seen_subcommand_from run plan replay check' -l only-from -r -F -d 'Keep the classes and tests whose paths stand in FILE, one a line; - is standard input'
complete -c jtap -n '__fish_seen_subcommand_from run plan replay check' -l shard -x -d 'Keep every K-th top-level class of those kept, beginning with the I-th'
complete -c jtap -n '__fish_seen_subcommand_from run plan replay check affected settings' -l explain -d 'Tell after a fault\'s line what mends it'
complete -c jtap -n '__fish_seen_subcommand_from run replay' -l summary -f -a 'all' -d 'Tell on standard error what failed, with file and line; with =all what was skipped, too'
complete -c jtap -n '__fish_seen_subcommand_from run replay' -l failed -r -F -d 'Write the paths of failed classes and tests to FILE, one a line, for --only-from'
complete -c jtap -n '__fish_seen_subcommand_from run replay' -l junit -r -F -d 'Write the results to FILE as JUnit\'s XML, which Jenkins and GitLab show'
complete -c jtap -n '__fish_seen_subcommand_from run replay' -l html -r -F -d 'Write the results to FILE as a page to look at, with what ran beside what'
complete -c jtap -n '__fish_seen_subcommand_from run replay' -l github -d 'Tell GitHub Actions, on standard error, at which lines classes and tests failed'
complete -c jtap -n '__fish_seen_subcommand_from run' -l durations -x -d 'Tell on standard error the N slowest classes and tests, with their times; with 0 all'
complete -c jtap -n '__fish_seen_subcommand_from run' -l record -r -F -d 'Write the events of the run to FILE, one a line, for jtap replay --schedule'
complete -c jtap -n '__fish_seen_subcommand_from run' -l trace -r -F -d 'Write to FILE when each worker ran what, as a trace that Perfetto and Chrome show'
complete -c jtap -n '__fish_seen_subcommand_from run' -l stats -d 'Tell on standard error how busy the workers were, and for which key tests waited longest'
complete -c jtap -n '__fish_seen_subcommand_from run' -l progress -d 'Show on standard error how far the run has come, if that is a terminal'
