"""Pieces of programs in which much can be told, for tools/random_programs.py.

A piece is some lines of a script, of which these have a meaning of their own:

    $x             a register of the piece's own
    @file @dir @sock @fifo @other   a path of such a kind or of any, the same in the whole piece
    #              a length; ## is a small one
    %kind %places  a kind of lock; a start and a length of few places
    ? LINE         the line stands there or it doesn't
    child .. done, child $x .. done   a child does this, and mostly ends; the register has its pid
    repeat N .. again   this is done N times
    many N LINE    N lines, where * stands for the number of each

"""

PIECES = [text.split("\n") for text in r"""
# A server and a client of another process.
$s = socket
bind $s @sock
listen $s
child
? close $s
$c = socket
connect $c @sock
write $c r0 #
? shutdown $c SHUT_WR
read $c r0 #
done
$p = accept $s
? unlink @sock
read $p r0 #
write $p r0 #
? close $s
read $p r0 #

# Both in one process; the name is another's or nobody's when it comes to it.
$s = socket
bind $s @sock
listen $s
? rename @sock @other
? link @sock @other
? unlink @sock
? close $s
$c = socket
? connect $c @sock
connect $c @other
? fcntl $s F_SETFL O_NONBLOCK
$p = accept $s
stat @sock
$p = accept $s
? bind $c @sock
? rename @file @sock

# More clients than may wait, and descriptors that run out.
$s = socket
bind $s @sock
listen $s
repeat 10
$c = socket
connect $c @sock
? close $c
again
repeat 30
dup $s
again
$p = accept $s
poll 0 $s POLLIN $p POLLIN|POLLOUT $c POLLIN|POLLOUT

# A name that two sockets want, one of which lets it go.
$s = socket
$t = socket
bind $s @sock
bind $t @sock
? unlink @sock
? close $s
bind $t @sock
listen $t
bind $s @other
? connect $s @sock
connect $t @other

# Bound names that are moved over one another, or that something else takes.
$s = socket
$t = socket
bind $s @sock
bind $t @other
listen $t
rename @sock @other
$c = socket
connect $c @other
listen $s
? rename @file @other
? rename @other @file
connect $c @other
? bind $t @sock
$p = accept $t

# What is left of a connection where one side is shut.
$a $b = socketpair
write $a r0 #
shutdown $a SHUT_WR
? shutdown $b SHUT_RD
poll 0 $a POLLIN|POLLOUT $b POLLIN|POLLOUT
read $b r0 #
write $b r0 #
? close $b
read $a r0 #
write $a r0 #

# More than a pipe holds, read by a child.
$r $w = pipe
child
close $w
repeat 4
read $r r0 #
again
? close $r
read $r r0 4096
done
? close $r
write $w r0 9000
write $w r0 ##
? fcntl $w F_SETFL O_NONBLOCK
write $w r0 5000

# A writer who sleeps, and what wakes it.
$a $b = socketpair
child
write $a r0 9000
write $a r0 #
? shutdown $a SHUT_WR
done
write $b r0 ##
? sched_yield
? shutdown $b SHUT_RD
? fcntl $a F_SETFL O_NONBLOCK
? read $b r0 #
? close $a
? close $b
read $b r0 9000

# A reader who sleeps, and a flag that is set under it.
$r $w = pipe
child
read $r r0 5
read $r r0 5
done
? sched_yield
fcntl $r F_SETFL O_NONBLOCK
? write $w r0 3
? dup2 $r $w
waitpid -1 WNOHANG
read $r r0 1

# Ends of a pipe that others take the place of.
$r $w = pipe
write $w r0 ##
$d = dup $w
? dup2 $r $w
dup2 $w $r
? close $d
read $r r0 ##
write $w r0 ##
dup2 $d 20
poll 0 $r POLLIN $w POLLOUT $d POLLOUT 20 POLLIN|POLLOUT

# Who doesn't wait for bytes or for room.
$r $w = pipe
$a $b = socketpair
fcntl $r F_SETFL O_NONBLOCK
? fcntl $w F_SETFL O_NONBLOCK
? fcntl $a F_SETFL O_NONBLOCK|O_APPEND
fcntl $b F_SETFL O_NONBLOCK
read $r r0 #
read $b r0 #
repeat 9
write $w r0 512
write $b r0 #
again
read $r r0 ##
write $w r0 512
write $b r0 9000
fcntl $b F_GETFL 0
? fcntl $r F_SETFL 0
read $r r0 #

# Several are waited for at once.
$r $w = pipe
$a $b = socketpair
child
? sched_yield
? write $w r0 ##
? write $b r0 ##
? shutdown $b SHUT_RDWR
? exit 3
close $w
done
? close $w
poll -1 $r POLLIN $a POLLIN
poll -1 $r POLLIN -1 POLLIN $a POLLIN|POLLOUT $b POLLIN 0 POLLIN 31 POLLOUT
read $r r0 ##
read $a r0 ##

# A reader who sleeps in its open, and the writer that wakes it.
mkfifo @fifo
child
$r = open @fifo O_RDONLY
read $r r0 #
read $r r0 #
? close $r
? open @fifo O_RDONLY
done
? sched_yield
$w = open @fifo O_WRONLY
write $w r0 #
? unlink @fifo
write $w r0 9000
? close $w
waitpid -1 WNOHANG

# Writers who sleep in their opens, and readers that come and go.
mkfifo @fifo
open @fifo O_WRONLY|O_NONBLOCK
child
$w = open @fifo O_WRONLY
? fcntl $w F_SETFL O_NONBLOCK
write $w r0 #
write $w r0 9000
done
child
? open @fifo O_WRONLY
done
? sched_yield
$r = open @fifo O_RDONLY|O_NONBLOCK
? read $r r0 5
close $r
open @fifo O_WRONLY|O_NONBLOCK
? $r = open @fifo O_RDONLY
read $r r0 9000

# Who sleeps in an open is killed, and who comes to that side later sleeps too.
mkfifo @fifo
child $j
open @fifo O_RDONLY
done
? sched_yield
? sched_yield
? open @fifo O_WRONLY|O_NONBLOCK
kill $j SIGKILL
open @fifo O_WRONLY|O_NONBLOCK
waitpid $j 0
child
? sched_yield
$r = open @fifo O_RDONLY
read $r r0 ##
done
$w = open @fifo O_WRONLY
write $w r0 ##

# A FIFO whose name goes, or is another's, while somebody sleeps in an open of it.
mkfifo @fifo
child
$r = open @fifo O_RDONLY
fstat $r
read $r r0 #
done
sched_yield
? sched_yield
? link @fifo @other
? rename @fifo @other
unlink @fifo
mkfifo @fifo
stat @fifo
? open @fifo O_WRONLY
$w = open @other O_WRONLY|O_NONBLOCK
write $w r0 ##
? unlink @other
? rename @file @fifo

# Ends of a FIFO that others take the place of, and a writer that nobody reads.
mkfifo @fifo
$r = open @fifo O_RDONLY|O_NONBLOCK
$w = open @fifo O_WRONLY
? $x = open @fifo O_WRONLY|O_CLOEXEC
write $w r0 #
? unlink @fifo
child
? dup2 $w $r
? exec @file
done
? dup2 $w $r
? read $r r0 ##
? $s = open @fifo O_RDONLY
close $r
write $w r0 ##
poll 0 $r POLLIN $w POLLOUT
? signal SIGPIPE SIG_DFL
write $w r0 9000
? dup2 0 $w
close $w
$r = open @fifo O_RDONLY|O_NONBLOCK
read $r r0 9000

# Two who want what the other holds: a circle, or somebody gives way.
$f = open @file O_RDWR|O_CREAT
setlk $f F_WRLCK 0 1
child
? $g = open @file O_RDWR
setlk $f F_WRLCK 1 1
? sched_yield
setlkw $f F_WRLCK 0 1
getlk $f F_RDLCK 0 0
? close $g
? setlk $f F_UNLCK 0 0
done
? sched_yield
? sched_yield
setlkw $f F_WRLCK 1 1
getlk $f F_WRLCK 0 0
setlk $f F_UNLCK 0 1
? setlkw $f F_WRLCK 0 0
waitpid -1 WNOHANG

# A circle of three through two files, or a chain that is none.
$f = open @file O_RDWR|O_CREAT
$g = open @other O_RDWR|O_CREAT
setlk $f F_WRLCK 0 1
child $j
setlk $f F_WRLCK 1 1
setlkw $g F_WRLCK 0 1
? setlkw $f F_WRLCK 0 1
done
child $k
setlk $g F_WRLCK 0 1
? sched_yield
setlkw $f F_WRLCK 0 1
done
sched_yield
? sched_yield
? kill $j SIGKILL
setlkw $f F_WRLCK 1 1
? kill $k SIGKILL
? close $f
? close $g
setlkw $g F_RDLCK 0 0
waitpid -1 WNOHANG

# Who sleeps may be refused by what another stands before.
$f = open @file O_RDWR|O_CREAT
$r $w = pipe
setlk $f F_WRLCK 0 1
child
setlk $f F_WRLCK 1 1
read $r r0 1
? getpid
setlkw $f F_WRLCK 0 1
? setlkw $f F_RDLCK 0 1
done
child
? sched_yield
? setlkw $f F_RDLCK 1 1
done
? waitpid -1 WNOHANG
write $w r0 1
? sched_yield
setlkw $f F_WRLCK 1 1
setlk $f F_UNLCK 0 1
? setlkw $f F_WRLCK 1 1

# A holder that is killed, or ends, and those that wait for it, of which one may be killed too.
$f = open @file O_RDWR|O_CREAT
$r $w = pipe
child $j
setlk $f F_WRLCK %places
write $w r0 ##
? exit 3
poll -1
done
? read $r r0 1
child $k
setlkw $f F_RDLCK %places
? setlkw $f F_WRLCK %places
done
? sched_yield
? sched_yield
? kill $k SIGKILL
kill $j SIGKILL
setlkw $f F_WRLCK 0 0
? waitpid $j 0
getlk $f F_WRLCK 0 0

# Ranges that are cut in the middle, joined and let go, and another that looks at them and waits for some.
$f = open @file O_RDWR|O_CREAT
setlk $f F_WRLCK 10 30
setlk $f F_RDLCK 20 10
? setlk $f F_UNLCK 24 2
child
$g = open @file O_RDWR
getlk $g F_WRLCK 0 0
getlk $g F_RDLCK 20 5
setlk $g F_RDLCK 20 4
setlkw $g F_WRLCK 24 2
getlk $g F_WRLCK %places
setlkw $g F_WRLCK 12 20
done
? sched_yield
setlk $f F_RDLCK 10 30
? sched_yield
? setlk $f F_UNLCK 0 25
setlk $f F_UNLCK 0 0
repeat 6
setlk $f %kind %places
again
? setlk $f F_WRLCK 5 0
? setlk $f F_UNLCK 15 1

# Many ranges of a byte each, that one of many places then joins or lets go.
$f = open @file O_RDWR|O_CREAT
? many 20 setlk $f F_WRLCK *0 1
many 8 setlk $f F_WRLCK *0 1
child
? many 8 setlkw $f F_RDLCK *5 2
? many 8 setlk $f F_WRLCK *1 9
? setlkw $f F_RDLCK 30 1
getlk $f F_RDLCK 11 0
done
? many 8 setlk $f F_RDLCK *1 8
? many 7 setlk $f F_WRLCK *1 9
? setlk $f F_RDLCK 25 40
setlk $f F_UNLCK 15 50
setlk $f F_RDLCK 0 0
? setlk $f F_UNLCK 0 0

# What another close of the file lets go: of a copy, of the same file opened once more, by dup2, by another name.
$f = open @file O_RDWR|O_CREAT
$g = open @file O_RDONLY
setlk $f F_WRLCK 0 0
child
setlkw $f F_WRLCK 3 1
? getlk $f F_WRLCK 0 0
? setlk $g F_RDLCK 0 2
done
sched_yield
? link @file @other
? $g = open @other O_RDONLY
? $h = dup $f
? close $h
? dup2 $f $g
? dup2 $g $f
? dup2 $f $f
close $g
setlk $f F_RDLCK %places
getlk $f F_WRLCK 0 0
? close $f

# A program takes the place of who holds ranges, and closes some of what it has open.
store r0 "#!prog\n"
$p = open "p" O_RDWR|O_CREAT
write $p r0 7
$f = open @file O_RDWR|O_CREAT
child
setlk $f F_WRLCK 2 4
? fcntl $f F_SETFD FD_CLOEXEC
? open @file O_RDONLY|O_CLOEXEC
? setlk $p F_WRLCK 0 0
exec "p"
done
? sched_yield
? setlk $f F_WRLCK 0 1
setlkw $f F_WRLCK 0 0
? fcntl $f F_SETFD FD_CLOEXEC
? exec "p"
? setlkw $p F_RDLCK 0 0
waitpid -1 WNOHANG

# Readers that share, who then all want to write, and a writer that waits for them.
$f = open @file O_RDWR|O_CREAT
repeat 4
child
setlkw $f F_RDLCK 0 4
sched_yield
? setlkw $f F_WRLCK 0 2
? setlk $f F_UNLCK 0 2
? close $f
done
again
setlkw $f F_WRLCK 0 0
setlk $f F_UNLCK 2 3
? setlk $f F_RDLCK 0 0
waitpid -1 WNOHANG

# A file whose name goes while its places are waited for; the next of that name is another.
$f = open @file O_RDWR|O_CREAT
setlk $f F_WRLCK 0 0
child
setlkw $f F_WRLCK 2 1
fstat $f
done
? sched_yield
unlink @file
$g = open @file O_RDWR|O_CREAT|O_EXCL
setlk $g F_WRLCK 0 0
? close $g
getlk $g F_WRLCK 0 0
? setlk $f F_UNLCK 1 4
? close $f
waitpid -1 WNOHANG

# A child has none of its parent's locks, and takes none away; what each may hold goes by how it opened the file.
$f = open @file O_RDWR|O_CREAT
setlk $f F_WRLCK 0 4
child
getlk $f F_RDLCK 0 0
setlk $f F_UNLCK 0 0
? close $f
$f = open @file O_WRONLY
setlk $f F_RDLCK 4 4
setlk $f F_WRLCK 4 4
setlkw $f F_WRLCK 3 1
? $g = open @file O_RDONLY
? setlkw $g F_RDLCK %places
? setlkw $g F_WRLCK %places
done
? sched_yield
getlk $f F_WRLCK 0 0
? setlkw $f F_WRLCK 2 6
? close $f
? waitpid -1 WNOHANG

# A file up to where the disk is full, and what then goes again.
$f = open @file O_RDWR|O_CREAT
repeat 12
write $f r0 9000
again
pwrite $f r0 # 270000
? pwrite $f r0 # 272384
? pwrite $f r0 # 67381248
? lseek $f 272384 SEEK_SET
? fcntl $f F_SETFL O_APPEND
write $f r0 #
ftruncate $f 60000
? ftruncate $f 272385
? ftruncate $f 67381249
open @other O_RDWR|O_CREAT
mkdir @dir
? lseek $f 0 SEEK_SET
? unlink @file
? ftruncate $f 3000
read $f r0 #
close $f
mkdir @dir

# A file is read whose name is gone.
$f = open @file O_RDWR|O_CREAT
write $f r0 #
write $f r0 9000
unlink @file
child
pread $f r0 # 0
? ftruncate $f ##
? close $f
done
? dup $f
$g = open @file O_RDWR|O_CREAT|O_EXCL
pread $f r0 # ##
fstat $f
fstat $g
close $f
stat @file

# One offset for two descriptors, another for a third.
$f = open @file O_RDWR|O_CREAT|O_TRUNC
$g = dup $f
$h = open @file O_WRONLY|O_APPEND
write $f r0 #
write $h r0 #
lseek $g ## SEEK_SET
read $f r0 #
lseek $h -5 SEEK_CUR
? lseek $h 9223372036854775807 SEEK_END
? fcntl $h F_SETFL 0
write $h r0 #

# Directories in directories, moved into one another.
mkdir "dir"
mkdir "dir/sub"
mkdir @dir
rename "dir" "dir/sub/new"
? open "dir/sub/a" O_RDWR|O_CREAT
rename "dir/sub" @other
rename @dir "dir"
rename @other @dir
rename "dir/sub" "sub"
rename @file @dir
rename @dir @file
rmdir @dir

# A long way down, and up again while it is moved.
mkdir "u"
mkdir "u/v"
mkdir "u/v/w"
mkdir "u/v/w/x"
open "u/v/w/x/a" O_RDWR|O_CREAT
chdir "u/v/w"
stat "../../../u/./v/w/x/.."
rename "/u/v/w" "/w"
stat "../u/v"
rename "/u" "x/u"
? chdir "x/u/v"
stat ".."
rename "/w" "/w/x/u/v/w"
rmdir "/w/x/u/v"
? chdir "/"
rmdir "/w/x/u/v"
rmdir "/w/x/u"
stat "w/x/a"
rename "w/x/a" "a"
rmdir "w/x"
rmdir "/w"

# A directory that somebody is in, or has open.
mkdir "dir"
child
chdir "dir"
? mkdir "sub"
? chdir "sub"
sched_yield
stat ".."
stat "../a"
rmdir "../dir"
done
? $d = open "dir" O_RDONLY
rmdir "dir"
? rename "dir" @other
mkdir @dir
rename @dir "dir"
? chdir "dir"
rmdir "/dir"
? close $d
rmdir @dir

# What a directory holds, while names go and come.
$d = open "." O_RDONLY
open "x1" O_RDWR|O_CREAT
open "x2" O_RDWR|O_CREAT
link "x2" "x3"
readdir $d r0 64
unlink "x1"
readdir $d r0 320
lseek $d -32 SEEK_CUR
? rename "x3" "x2"
? rename "x2" @other
readdir $d r0 320

# Names until there is no node for one more.
? mkdir "n1"
? chdir "n1"
? many 16 mkdir "n*"
? many 16 open "n*" O_RDWR|O_CREAT
? rmdir "n2"
$f = open @other O_RDWR|O_CREAT
$s = socket
bind $s @sock
? rename @sock "n3"
rename "n3" "n4/m"
? unlink @other
close $f
mkdir "n2"

# A directory that wants one block more than there is.
$f = open "f" O_RDWR|O_CREAT
mkdir "d"
? many 29 link "f" "d/l*"
? many 30 link "f" "d/l*"
repeat 8
write $f r0 9000
again
ftruncate $f 12288
link "f" "d/m1"
link "f" "d/m2"
mkdir "d/m3"
rename "f" "d/m4"
? ftruncate $f 0
rename "f" "d/m4"
unlink "d/l4"
stat "d"

# A program of a file, with what it has open and what it lets go.
store r0 "#!prog\n"
$f = open @file O_RDWR|O_CREAT|O_CLOEXEC
write $f r0 7
$r $w = pipe
? fcntl $r F_SETFD FD_CLOEXEC
? unlink @file
child
? fcntl $w F_SETFD FD_CLOEXEC
exec @file
write $w r0 ##
done
close $w
? fcntl $f F_GETFD 0
? exec @other
waitpid -1 0
read $r r0 #
? exec @file

# A program takes the place of who starts it.
store r0 "#!prog\n"
? store r0 "#!init\n"
$f = open "p" O_RDWR|O_CREAT
write $f r0 7
? fcntl $f F_SETFD FD_CLOEXEC
? dup2 $f 9
? unlink "p"
exec "p"

# A file that is no program, by a hair.
store r0 "#!prog"
$f = open @file O_RDWR|O_CREAT|O_TRUNC
write $f r0 ##
exec @file
mkdir @dir
exec @dir

# Memory that two have, and that one of them changes.
$m = mmap 12288
store $m "one"
child
store $m "another"
load $m 7
munmap $m 4096
load $m 7
mmap 4096
done
store $m "two"
? munmap $m 8192
load $m 7
store 4094 "over the edge"
load 4090 20

# More memory than there are places, and one page at its end.
$m = mmap 700000
mmap 700000
munmap $m 348160
mmap 340000
mmap 9000
$n = mmap 4096
store $n "x"
store 1048570 "over"
store 1044480 "end"
child
store 1044480 "END"
load 1044480 3
done
mmap 1048576
load 1044480 3
munmap 1044480 4096
munmap 4096 1044481

# Memory that another has filled or read through a descriptor.
$m = mmap 8192
$r $w = pipe
store $m "abcdefgh"
child
read $r $m 8
load $m 8
done
write $w $m 8
? store $m "later"
load $m 8

# Who sleeps is killed; who has ended is waited for.
child $j
poll -1
done
child $k
? sched_yield
exit 7
done
waitpid $k WNOHANG
kill $j 0
? kill $j SIGKILL
kill $k SIGKILL
? waitpid $k 0
kill $k 0
waitpid -1 0
waitpid -1 0

# As many as there may be.
repeat 66
child
poll -1
done
again

# A file with as many names as it may have.
$f = open "f" O_RDWR|O_CREAT
many 128 link "f" "l*"
fstat $f
unlink "l5"
link "l6" "l5"
link "l6" "again"
rename "l6" "l7"

# A file with some names in two directories.
open @file O_RDWR|O_CREAT
mkdir "dir"
link @file "dir/l"
rename @file "dir/l"
rename "dir/l" @other
link @other "dir/l"
unlink @file
stat @other
rename "dir/l" @file
""".strip("\n").split("\n\n")]

# Lines that make no call of their own name.
OTHERS = {"child": {"fork"}, "done": set(), "repeat": set(), "again": {"sched_yield"}}


def calls_of(piece):
    """The calls that a piece makes."""
    found = set()
    for line in piece[1:]:
        words = line.rpartition(" = ")[2].removeprefix("? ").split()
        head = words[2] if words[0] == "many" else words[0]
        found |= OTHERS.get(head, {head})
    return found
