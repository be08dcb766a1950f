# An alarm whose handler dies ends a wait of Perl's own msgrcv and msgsnd. With the argument
# "control" no signal is sent, and it waits for ever.
use strict;
use warnings;
use IPC::SysV qw(IPC_CREAT IPC_NOWAIT IPC_PRIVATE IPC_RMID);

my $is_control = @ARGV && $ARGV[0] eq 'control';
my $id = msgget(IPC_PRIVATE, IPC_CREAT | 0600) // die "no queues: $!\n";
my $message = pack 'l! a*', 1, 'x' x 100;

sub ends {
    my ($call, $action) = @_;
    my $result = eval {
        local $SIG{ALRM} = sub { die "alarm\n" };
        alarm 1 unless $is_control;
        my $done = $action->();
        alarm 0;
        defined $done ? 'done' : "refused: $!";
    };
    print "$call ", $result // $@, "\n";
}

ends('receive', sub { msgrcv($id, my $got, 100, 0, 0) });
1 while msgsnd($id, $message, IPC_NOWAIT);
ends('send', sub { msgsnd($id, $message, 0) });
msgctl($id, IPC_RMID, 0) or die "not removed: $!\n";
print "removed\n";
