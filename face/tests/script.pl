# Random scripts of calls by Perl's own functions and IPC::SysV, as tests/script.c has them.
use strict;
use warnings;
use IPC::SysV qw(IPC_CREAT IPC_EXCL IPC_NOWAIT IPC_PRIVATE IPC_RMID IPC_SET IPC_STAT MSG_NOERROR);
use IPC::Msg;
use Errno;

my ($first, $runs) = (@ARGV, 1, 1);
my $key = 0x44000000 + ($$ & 0xffff) * 16;
my $state;
my (@queues, @ids);

sub next_below {
    my ($below) = @_;
    $state = ($state * 1103515245 + 12345) % 4294967296;
    return int($state / 65536) % $below;
}

sub error { my ($name) = grep { $!{$_} } keys %!; return $name // $! + 0 }

sub told { my ($call, $result) = @_; print "$call ", defined $result ? $result + 0 : error(), "\n" }

sub get {
    my $place = next_below(3);
    my $flags = (IPC_CREAT, IPC_CREAT | IPC_EXCL, 0)[next_below(3)];
    my $queue = IPC::Msg->new(next_below(4) ? $key + $place : IPC_PRIVATE, $flags | 0600);
    return told('get', undef) unless $queue;
    for my $i (0 .. 2) {
        next unless $queues[$i] && $queues[$i]->id == $queue->id;
        print "get $i\n";
        return;
    }
    $queues[$place]->remove if $queues[$place];
    ($queues[$place], $ids[$place]) = ($queue, $queue->id);
    print "get new $place\n";
    told('set', $queue->set(qbytes => 4096));
}

sub queue { return $queues[next_below(3)] }

sub sends {
    my $queue = queue() or return;
    my $text = join '', map { chr(97 + next_below(26)) } 1 .. next_below(300);
    my $type = next_below(12) ? 1 + next_below(5) : -1;
    told('send', $queue->snd($type, $text, IPC_NOWAIT));
}

sub receives {
    my $queue = queue() or return;
    my $flags = IPC_NOWAIT | (next_below(3) ? 0 : MSG_NOERROR);
    my $text;
    my $type = $queue->rcv($text, next_below(400), next_below(13) - 6, $flags);
    told('receive', $type);
    print "text $text\n" if defined $type;
}

sub shows {
    my $queue = queue() or return;
    my $stat = $queue->stat;
    return told('stat', undef) unless $stat;
    printf "%d messages of %d sent %d received %d by %d %d mode %o\n", $stat->qnum, $stat->qbytes,
        $stat->stime != 0, $stat->rtime != 0, $stat->lspid == $$, $stat->lrpid == $$,
        $stat->mode & 0777;
}

sub changes {
    my $queue = queue() or return;
    told('set', $queue->set(qbytes => next_below(2000), mode => 0600));
}

sub raw {
    my $bytes = pack 'l! a*', 1 + next_below(3), 'x' x next_below(50);
    told('msgsnd', msgsnd(-1, $bytes, IPC_NOWAIT));
    my $id = $ids[next_below(3)] // return;
    told('msgsnd', msgsnd($id, $bytes, IPC_NOWAIT));
    told('msgrcv', msgrcv($id, my $got, 60, 0, IPC_NOWAIT));
    told('msgctl', msgctl($id, IPC_STAT, my $stat = ''));
}

# IPC::Msg forgets the id of what it has removed.
sub removes {
    my $place = next_below(3);
    my $queue = $queues[$place] or return;
    told('remove', $queue->remove);
    undef $queues[$place];
    told('remove', msgctl($ids[$place], IPC_RMID, 0));
}

{
    my $probe = IPC::Msg->new(IPC_PRIVATE, IPC_CREAT | 0600) or die "no queues: $!\n";
    $probe->remove or die "no queues: $!\n";
}
for my $seed ($first .. $first + $runs - 1) {
    $state = $seed;
    @queues = @ids = ();
    print "seed $seed\n";
    for (1 .. 80) {
        my $which = next_below(20);
        if    ($which < 3)  { get() }
        elsif ($which < 8)  { sends() }
        elsif ($which < 13) { receives() }
        elsif ($which < 15) { shows() }
        elsif ($which < 16) { changes() }
        elsif ($which < 18) { raw() }
        elsif ($which < 19) { removes() }
    }
    for my $queue (@queues) { told('end', $queue->remove) if $queue }
}
