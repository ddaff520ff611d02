"""What `./lrc` does before the program runs: it proves the crates that the program stands on, and builds it.

places    where things lie, and how something is said
crates    the crates that the program stands on, their sources and weights
built     whether the program is built from the sources as they are
rooms     the folders that crates are proved in, and what is kept of them
runs      runs of the toolchain: begun, paused, ended
plan      which crate comes next, and how long all takes
progress  how far the build is, in a line
look      the first look: the program's answer, checked and not proved
build     the build itself
told      help, where nothing is built
install   puts the program into a folder
main      the whole

What runs before a program that is built (places, crates, built, main) imports little, since that is paid each time.
"""
