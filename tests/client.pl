# A client on the loopback for tests/serve.sh: perl client.pl PORT FILE ..
#
# It sends the files one after the other over one connection to this port, each after the first once the reply to the one before is
# whole, which has a length, or no body. After the last it ends its side. It writes to standard output all that came, up to the end. In the
# place of a file, @FILE waits until there is such a file. After 60 seconds it ends, whatever has come.
use strict;
use warnings;
use IO::Socket::INET;

my ($port, @files) = @ARGV;
$SIG{PIPE} = 'IGNORE';
alarm 60;
my $link = IO::Socket::INET->new(PeerAddr => '127.0.0.1', PeerPort => $port) or die "port $port: $!";
binmode STDOUT;
$| = 1;

# The rest of what came, behind the replies that were whole.
my $held = '';

# Takes what comes next. Whether there was any.
sub take {
    my $count = sysread($link, my $bytes, 65536);
    return 0 unless $count;
    print $bytes;
    $held .= $bytes;
    return 1;
}

sub take_reply {
    while ($held !~ /\r\n\r\n/) {
        take() or return;
    }
    my ($head) = $held =~ /\A(.*?\r\n\r\n)/s;
    my ($length) = $head =~ /^Content-Length: (\d+)\r$/im;
    my $whole = length($head) + ($length // 0);
    while (length $held < $whole) {
        take() or return;
    }
    substr($held, 0, $whole) = '';
}

# Sends a file. Another process does so, since what is answered may have to be taken before all of it is sent.
sub send_file {
    my ($name, $is_last) = @_;
    open my $file, '<', $name or die "$name: $!";
    binmode $file;
    local $/;
    my $text = <$file>;
    my $sender = fork;
    return if $sender;
    my $done = 0;
    while ($done < length $text) {
        my $count = syswrite($link, $text, length($text) - $done, $done);
        exit 1 unless $count;
        $done += $count;
    }
    shutdown $link, 1 if $is_last;
    exit 0;
}

my ($is_first, $is_held) = (1, 0);
while (defined(my $name = shift @files)) {
    if ($name =~ /\A@(.*)/) {
        my $wanted = $1;
        take_reply() unless $is_first;
        select(undef, undef, undef, 0.05) until -e $wanted;
        ($is_first, $is_held) = (1, !@files);
        next;
    }
    take_reply() unless $is_first;
    $is_first = 0;
    send_file($name, !@files);
}
shutdown $link, 1 if $is_held;
1 while take();
