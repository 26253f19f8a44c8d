# Two origins on the loopback for tests/serve.sh: perl origin.pl PORTS
#
# It writes the numbers of two ports into the file PORTS: at the first it answers one request of HTTP a connection, at the second it
# sends back whatever comes, up to the end. It ends after five minutes at the latest.
#
#     /big        16 bytes, 655,360 times over
#     /chunked    hello, in chunks with an extension and a trailer
#     /close      hello, up to the end of the connection
#     /cut        hello, of ten bytes that are announced, and the end of the connection
#     /echo       the data of the request's body
#     /noise      a line that is none of HTTP, and the end of the connection
#     /nothing    the end of the connection
#     /raw        the request as it came, with a body in chunks, in one chunk
#     any other   hello
#
# Where a reply has a length or chunks, the connection stays open until the other side ends it.
use strict;
use warnings;
use IO::Socket::INET;

my ($ports) = @ARGV;
my %listener = map { $_ => IO::Socket::INET->new(Listen => 64, LocalAddr => '127.0.0.1') || die "no port: $!" } 'http', 'echo';
$SIG{CHLD} = 'IGNORE';
$SIG{PIPE} = 'IGNORE';
alarm 300;

# What comes next of a connection; the empty text is its end.
sub more {
    my ($link) = @_;
    my $count = sysread($link, my $bytes, 65536);
    return $count ? $bytes : '';
}

sub put {
    my ($link, $bytes) = @_;
    my $done = 0;
    while ($done < length $bytes) {
        my $count = syswrite($link, $bytes, length($bytes) - $done, $done);
        exit 1 unless $count;
        $done += $count;
    }
}

# The data of a body in chunks, without extensions and trailers.
sub data {
    my ($body) = @_;
    my ($data, $at) = ('', 0);
    while (1) {
        my $end = index($body, "\r\n", $at);
        my $size = hex substr($body, $at, $end - $at);
        return $data if $size == 0;
        $data .= substr($body, $end + 2, $size);
        $at = $end + 2 + $size + 2;
    }
}

# The head and the body of a request, as they came.
sub request {
    my ($link) = @_;
    my $text = '';
    while ($text !~ /\r\n\r\n/) {
        my $bytes = more($link);
        exit 1 if $bytes eq '';
        $text .= $bytes;
    }
    my ($head, $body) = $text =~ /\A(.*?\r\n\r\n)(.*)\z/s;
    my ($length) = $head =~ /^Content-Length: (\d+)\r$/im;
    my $is_whole = sub { length $body >= ($length // 0) };
    $is_whole = sub { $body eq "0\r\n\r\n" || substr($body, -7) eq "\r\n0\r\n\r\n" } if $head =~ /^Transfer-Encoding: chunked\r$/im;
    until ($is_whole->()) {
        my $bytes = more($link);
        exit 1 if $bytes eq '';
        $body .= $bytes;
    }
    return ($head, $body);
}

sub answer {
    my ($link) = @_;
    my ($head, $body) = request($link);
    my ($method, $path) = $head =~ /\A(\S+) (\S+) /;
    my $reply = 'hello';
    $reply = '0123456789abcdef' x 655360 if $path eq '/big';
    $reply = $head =~ /^Transfer-Encoding:/im ? data($body) : $body if $path eq '/echo';
    if ($path eq '/raw') {
        my $text = $head . $body;
        put($link, sprintf("HTTP/1.1 201 Made it\r\nTransfer-Encoding: chunked\r\nX-Kept: a\r\nConnection: X-Hop\r\nX-Hop: b\r\n\r\n%X\r\n%s\r\n0\r\n\r\n", length $text, $text));
    } elsif ($path eq '/chunked') {
        put($link, "HTTP/1.1 200 OK\r\nTransfer-Encoding: chunked\r\n\r\n02;x=y\r\nhe\r\n3\r\nllo\r\n0\r\nT: 1\r\n\r\n");
    } elsif ($path eq '/cut') {
        put($link, "HTTP/1.1 200 OK\r\nContent-Length: 10\r\n\r\n$reply");
        return;
    } elsif ($path eq '/noise') {
        put($link, "220 ready\r\n\r\n");
        return;
    } elsif ($path eq '/nothing') {
        return;
    } elsif ($path eq '/close') {
        put($link, "HTTP/1.1 200 OK\r\n\r\n$reply");
        return;
    } else {
        my $length = length $reply;
        put($link, "HTTP/1.1 200 OK\r\nContent-Length: $length\r\n\r\n" . ($method eq 'HEAD' ? '' : $reply));
    }
    1 while more($link) ne '';
}

sub echo {
    my ($link) = @_;
    while ((my $bytes = more($link)) ne '') {
        put($link, $bytes);
    }
}

# Each connection has a process of its own.
sub attend {
    my ($listener, $what) = @_;
    while (1) {
        my $link = $listener->accept or next;
        if (!fork) {
            alarm 60;
            $what->($link);
            exit 0;
        }
        close $link;
    }
}

my $http = fork;
attend($listener{http}, \&answer) unless $http;
my $echo = fork;
attend($listener{echo}, \&echo) unless $echo;
open my $file, '>', "$ports.new" or die "$ports: $!";
print $file join(' ', map { $listener{$_}->sockport } 'http', 'echo'), "\n";
close $file;
rename "$ports.new", $ports or die "$ports: $!";
close $_ for values %listener;
$SIG{TERM} = $SIG{ALRM} = sub { kill 'TERM', $http, $echo; exit 0 };
sleep 1 while 1;
