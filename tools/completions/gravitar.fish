# fish completion for gravitar:  cp gravitar.fish ~/.config/fish/completions
set -l commands run asm debug show soak pcm frames seek profile
complete -c gravitar -n "not __fish_seen_subcommand_from $commands" -f
complete -c gravitar -n "not __fish_seen_subcommand_from $commands" -a run -d 'run a board and write its log'
complete -c gravitar -n "not __fish_seen_subcommand_from $commands" -a asm -d 'assemble two sources into an image'
complete -c gravitar -n "not __fish_seen_subcommand_from $commands" -a debug -d "run a debugger's script"
complete -c gravitar -n "not __fish_seen_subcommand_from $commands" -a show -d 'show a saved board'
complete -c gravitar -n "not __fish_seen_subcommand_from $commands" -a soak -d 'run a large workload'
complete -c gravitar -n "not __fish_seen_subcommand_from $commands" -a pcm -d 'write the sound of a run'
complete -c gravitar -n "not __fish_seen_subcommand_from $commands" -a frames -d 'write a line for each picture'
complete -c gravitar -n "not __fish_seen_subcommand_from $commands" -a seek -d 'show the boards at any clocks'
complete -c gravitar -n "not __fish_seen_subcommand_from $commands" -a profile -d 'write where the clocks went'
set -l board run debug pcm frames seek profile
complete -c gravitar -n "__fish_seen_subcommand_from $board" -l state -r -d 'begin with a saved board'
complete -c gravitar -n "__fish_seen_subcommand_from $board" -l earom -r -d 'begin with the cells in a file'
complete -c gravitar -n "__fish_seen_subcommand_from $board" -l timers -d 'connect the timers to the interrupt line'
complete -c gravitar -n "__fish_seen_subcommand_from run pcm frames seek profile" -l until -x -d 'end at this clock'
complete -c gravitar -n "__fish_seen_subcommand_from run" -l cuts -x -d 'save and reload at these clocks'
complete -c gravitar -n "__fish_seen_subcommand_from run" -l save -r -d 'store the board'
complete -c gravitar -n "__fish_seen_subcommand_from run" -l cost -d 'write the device calls'
