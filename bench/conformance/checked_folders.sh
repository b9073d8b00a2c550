# Read by workspaces.sh and debian.sh, with `bench` set: the program, the place of what they make, Go, and the program in Go that they compare with.
. "$bench/shared/program.sh"
mkdir -p "$out" || exit 2
go=$("$bench/shared/go_command.sh") || exit 2
peer=$("$bench/shared/go_peer.sh" conformance/gopackages) || exit 2
