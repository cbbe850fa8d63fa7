# Completion of the words of `twe` and its companions for fish. Copy this file to ~/.config/fish/completions/, or let bin/install put it
# where fish looks for it, by the name of each program.

complete -c tw -n __fish_use_subcommand -f
complete -c tw -n __fish_use_subcommand -a check -d 'whether the text in a file is accepted'
complete -c tw -n __fish_use_subcommand -a run -d 'run the text in a file'
complete -c tw -n __fish_use_subcommand -a why -d 'why it is refused, or its run ends early'
complete -c tw -n __fish_use_subcommand -a keep -d 'the text with the journal of its run'
complete -c tw -n __fish_use_subcommand -a explore -d 'what all its runs give'
complete -c tw -n __fish_use_subcommand -a advise -d 'what its run could gain from more workers'
complete -c tw -n __fish_use_subcommand -a draw -d 'a picture of its run, beside the file'
complete -c tw -n __fish_use_subcommand -a annotate -d 'the text with its least summaries'
complete -c tw -n __fish_use_subcommand -a fmt -d 'write it in its layout'
complete -c tw -n __fish_use_subcommand -a watch -d 'check it after each save'
complete -c tw -n __fish_use_subcommand -a help -d 'what each command does'
complete -c tw -n '__fish_seen_subcommand_from run keep advise draw; and not __fish_contains_opt workers' -l workers -x -d 'how many workers, 0 to 64'
complete -c tw -n '__fish_seen_subcommand_from run why keep explore advise draw; and not __fish_contains_opt fuel' -l fuel -x -d 'how much fuel each task has'
complete -c tw -n '__fish_seen_subcommand_from run why keep explore advise draw; and not __fish_contains_opt tasks' -l tasks -x -d 'how many tasks may be made'
complete -c tw -n '__fish_seen_subcommand_from run; and not __fish_contains_opt journal' -l journal -d 'write the journal too'
complete -c tw -n '__fish_seen_subcommand_from explore; and not __fish_contains_opt states' -l states -x -d 'how many states may be found'
complete -c tw -n '__fish_seen_subcommand_from explore; and not __fish_contains_opt journal json' -l journal -x -d 'the journal of one result'
complete -c tw -n '__fish_seen_subcommand_from explore; and not __fish_contains_opt journal json' -l json -d 'JSON in place of lines'
complete -c tw -n '__fish_seen_subcommand_from fmt; and not __fish_contains_opt check' -l check -d 'write the lines that differ'
complete -c tw -n '__fish_seen_subcommand_from why; and not __fish_contains_opt all' -l all -d 'each rule on effects that fails'
complete -c tw -n '__fish_seen_subcommand_from why; and not __fish_contains_opt run' -l run -d 'run it, and say why the run ends early'

complete -c twe -f
complete -c twe -n __fish_use_subcommand -a check -d 'accept a text, or report its one refusal'
complete -c twe -n __fish_use_subcommand -a run -d 'run an accepted text'
complete -c twe -n __fish_use_subcommand -a replay -d 'take the moves of a journal again'
complete -c twe -n __fish_use_subcommand -a load -d 'run a large program that is made'

complete -c twe -n '__fish_seen_subcommand_from run load; and not __fish_contains_opt workers' -l workers -x -d 'how many workers run the program, 0 to 64'
complete -c twe -n '__fish_seen_subcommand_from run replay; and not __fish_contains_opt fuel' -l fuel -x -d 'how much fuel each task has, 0 to 100000000'
complete -c twe -n '__fish_seen_subcommand_from run replay; and not __fish_contains_opt tasks' -l tasks -x -d 'how many tasks may be made, 1 to 100000'
complete -c twe -n '__fish_seen_subcommand_from run; and not __fish_contains_opt journal' -l journal -d 'write the journal too'

complete -c twe_advise -f
complete -c twe_advise -n __fish_use_subcommand -a --json -d 'write JSON in place of tables'
complete -c twe_advise -l workers -x -d 'write a row for so many workers, 1 to 64'
complete -c twe_annotate -f
complete -c twe_annotate -n __fish_use_subcommand -a matrix -d 'a line for each two tasks'
complete -c twe_annotate -n __fish_use_subcommand -a write -d 'the text with the least summaries'
complete -c twe_annotate -n __fish_use_subcommand -a compare -d 'a line for each summary that is wider than what is needed'
complete -c twe_batch -f
complete -c twe_batch -n __fish_use_subcommand -a check -d 'check each program of a batch'
complete -c twe_batch -n __fish_use_subcommand -a run -d 'check and run each program of a batch'
complete -c twe_draw -f
complete -c twe_draw -n __fish_use_subcommand -a order -d 'a column for each entry'
complete -c twe_draw -n __fish_use_subcommand -a trace -d 'the events of a trace'
complete -c twe_explain -f
complete -c twe_explain -n 'test (count (commandline -opc)) -eq 1' -l help -d 'what the program does'
complete -c twe_explain -n 'test (count (commandline -opc)) -eq 1' -l version -d 'the version'
complete -c twe_explain -n 'not __fish_contains_opt name' -l name -x -d 'the name that is shown before places'
complete -c twe_explain -n 'not __fish_contains_opt lines' -l lines -d 'one line for each note, for editors'
complete -c twe_explain -n 'not __fish_contains_opt all' -l all -d 'each rule on effects that fails, at each place'
complete -c twe_explain -n 'not __fish_contains_opt run' -l run -d 'run the text, and say why the run goes no further'
complete -c twe_explain -n 'not __fish_contains_opt fuel' -l fuel -x -d 'how much fuel each task has'
complete -c twe_explain -n 'not __fish_contains_opt tasks' -l tasks -x -d 'how many tasks may be made'
complete -c twe_explore -f
complete -c twe_explore -n 'not __fish_contains_opt states' -l states -x -d 'how many states may be found'
complete -c twe_explore -n 'not __fish_contains_opt fuel' -l fuel -x -d 'how much fuel each task has'
complete -c twe_explore -n 'not __fish_contains_opt tasks' -l tasks -x -d 'how many tasks may be made'
complete -c twe_explore -n 'not __fish_contains_opt journal json' -l journal -x -d 'write the journal of this result alone'
complete -c twe_explore -n 'not __fish_contains_opt journal json' -l json -d 'write JSON in place of lines'
complete -c twe_format -f
complete -c twe_format -n __fish_use_subcommand -a --check -d 'the lines that are not in the layout'
complete -c twe_infer -f
complete -c twe_opt -f
complete -c twe_profile -f
