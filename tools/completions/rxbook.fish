# The words of rxbook, for fish. A word behind a command that reads is a file, unless it begins with -.
set -l commands run audit explain picture live storm
set -l none "not __fish_seen_subcommand_from $commands help"
complete -c rxbook -n $none -a "$commands help --help --version"
complete -c rxbook -f -n "__fish_seen_subcommand_from help" -a "$commands"
complete -c rxbook -n "__fish_seen_subcommand_from run" -a "--dump --names --trace --strict --help"
complete -c rxbook -n "__fish_seen_subcommand_from audit" -a "--names --help"
complete -c rxbook -n "__fish_seen_subcommand_from explain picture live" -a "--help"
complete -c rxbook -f -n "__fish_seen_subcommand_from storm" -a "--sources --workers --items --help"
