# How fast `aclproxy serve` is on the loopback, outside of the gate: perl speed.pl [PROGRAM [SECONDS]]
#
# Each measure runs for so many seconds (4 if no number is given), beside one of the same clients and the same origin without a proxy, so that
# what is written are ratios of one machine in one run. The origin and the clients are perl, and take more time than the proxy does: so the
# ratios say what users lose, and the processor time is the proxy's own, by the system's counts. With strace it counts system calls a request.
use strict;
use warnings;
use IO::Socket::INET;
use IO::Select;
use POSIX ();
use File::Temp 'tempdir';
use File::Basename 'dirname';
use Cwd 'abs_path';
use Time::HiRes qw(time sleep);

my ($program, $seconds) = @ARGV;
$program = abs_path($program // dirname(abs_path($0)) . '/../crates/sq_main/out/sq_main');
$seconds //= 4;
my $folder = tempdir(CLEANUP => 0);
chdir $folder or die;
$SIG{PIPE} = 'IGNORE';
my $parent = $$;
my @others;
my $server = 0;
END { if ($$ == $parent) { local $?; kill 'KILL', grep { $_ } $server, @others; chdir '/'; system 'rm', '-rf', $folder } }

sub slurp { my ($name) = @_; open my $file, '<', $name or return ''; local $/; return <$file> // '' }
sub spill { my ($name, $text) = @_; open my $file, '>', $name or die; print $file $text; close $file }

# Origins of eight processes each: 1 KiB a request, after which the connection ends; back what comes; and bytes without end.
my $SMALL = 'x' x 1024;
my $REPLY = "HTTP/1.1 200 OK\r\nContent-Length: 1024\r\n\r\n$SMALL";
my $MANY = 'y' x 65536;
sub be_http { my ($link) = @_; sysread $link, my $bytes, 65536; syswrite $link, $REPLY }
sub be_many { my ($link) = @_; sysread $link, my $bytes, 65536; 1 while syswrite $link, $MANY }
sub be_idle { my ($link) = @_; 1 while sysread $link, my $bytes, 65536 }
my %port;
for my $pair (['http', \&be_http, 8], ['many', \&be_many, 2], ['idle', \&be_idle, 64]) {
    my ($name, $what, $processes) = @$pair;
    my $listener = IO::Socket::INET->new(Listen => 1024, LocalAddr => '127.0.0.1') or die "no port: $!";
    $port{$name} = $listener->sockport;
    for (1 .. $processes) {
        my $child = fork // die "no fork: $!";
        if ($child) { push @others, $child; next }
        alarm 600;
        while (getppid == $parent) {
            my $link = $listener->accept or next;
            $what->($link);
            close $link;
        }
        POSIX::_exit(0);
    }
}

# Starts a server of this configuration with so many workers, and takes how long that took up to its first answer.
my ($orders, $said, $proxy);
sub start {
    my ($workers, $text) = @_;
    spill('squid.conf', $text);
    pipe my $its_input, $orders or die;
    pipe $said, my $its_output or die;
    $proxy = 20000 + int rand 10000;
    my $began = time;
    $server = fork // die "no fork: $!";
    if (!$server) {
        open STDIN, '<&', $its_input;
        open STDOUT, '>&', $its_output;
        open STDERR, '>', 'journal';
        close $_ for $its_input, $orders, $said, $its_output;
        exec $program, 'serve', 'squid.conf', '--port', $proxy, '--workers', $workers or POSIX::_exit(127);
    }
    close $_ for $its_input, $its_output;
    die "speed: it does not begin\n" unless (readline($said) // '') eq "listening $proxy\n";
    my $link = dial($proxy);
    syswrite $link, "GET http://127.0.0.1/refused HTTP/1.1\r\nHost: a\r\n\r\n";
    sysread $link, my $bytes, 65536;
    return time - $began;
}
sub stop {
    syswrite $orders, "shutdown\n";
    waitpid $server, 0;
    $server = 0;
}
sub dial { my ($port) = @_; return IO::Socket::INET->new(PeerAddr => '127.0.0.1', PeerPort => $port) // die "no connection: $!" }
sub resident { my ($size) = slurp("/proc/$server/status") =~ /^VmRSS:\s*(\d+)/m; return $size }
# The seconds of a processor that the server took so far.
sub ran { my @words = split / /, slurp("/proc/$server/stat") =~ s/.*\) //sr; return ($words[11] + $words[12]) / POSIX::sysconf(&POSIX::_SC_CLK_TCK) }

# Runs so many clients, each of which does this over and over, for the seconds; gives how much they did a second, and of how many.
sub all {
    my ($clients, $begin, $do) = @_;
    pipe my $counts, my $count or die;
    my $until = time + $seconds + 0.3;
    my @clients;
    for my $number (1 .. $clients) {
        my $child = fork // die "no fork: $!";
        if ($child) { push @clients, $child; next }
        alarm $seconds + 60;
        my $done = 0;
        my $link = $begin->();
        $done += $do->(\$link) while time < $until;
        syswrite $count, "$done\n";
        POSIX::_exit(0);
    }
    close $count;
    my $began = time;
    my $sum = 0;
    $sum += $_ while readline $counts;
    my $took = time - $began;
    waitpid $_, 0 for @clients;
    return ($sum / $took, $sum);
}
sub get {
    my ($link, $request, $length) = @_;
    syswrite $link, $request;
    my $held = '';
    while (length $held < $length) {
        sysread $link, $held, 65536, length $held or die "speed: the reply broke off after " . length($held) . "\n";
    }
    return 1;
}
my $request = "GET http://127.0.0.1:$port{http}/ HTTP/1.1\r\nHost: a\r\n\r\n";
my $proxied = length "HTTP/1.1 200 OK\r\nContent-Length: 1024\r\nVia: 1.1 aclproxy\r\n\r\n$SMALL";
my $refused = "GET http://127.0.0.1/refused HTTP/1.1\r\nHost: a\r\n\r\n";
my $denied = length "HTTP/1.1 403 Forbidden\r\nContent-Type: text/plain\r\nContent-Length: 14\r\n\r\ndenied rule 1\n";
my $rules = "acl refused url_regex /refused\nhttp_access deny refused\nhttp_access allow localhost\n";

my @starts = sort { $a <=> $b } map { my $took = start(8, $rules); stop(); $took } 1 .. 5;
printf "speed: from its start to its first answer %.1f ms (the median of five)\n", $starts[2] * 1000;
start(8, $rules);
printf "speed: resident with 8 workers, after one request: %d KiB\n", resident();
stop();
start(64, $rules);
printf "speed: resident with 64 workers, after one request: %d KiB\n", resident();
my @tunnels = map { my $link = dial($proxy); get($link, "CONNECT 127.0.0.1:$port{idle} HTTP/1.1\r\nHost: a\r\n\r\n", 39); $link } 1 .. 64;
printf "speed: with 64 tunnels open: %d KiB\n", resident();
close $_ for @tunnels;
sleep 0.2;
printf "speed: once these are closed: %d KiB\n", resident();

for my $clients (8, 64) {
    my ($direct) = all($clients, sub { undef }, sub { my $link = dial($port{http}); get($link, $request, length $REPLY) });
    my $before = ran();
    my ($through, $sum) = all($clients, sub { dial($proxy) }, sub { get(${$_[0]}, $request, $proxied) });
    my $each = (ran() - $before) / $sum * 1e6;
    my ($fresh) = all($clients, sub { undef }, sub { my $link = dial($proxy); get($link, $request, $proxied) });
    printf "speed: 1 KiB at %d clients: %d requests a second without a proxy, %d over connections to it that stay open (ratio %.2f), %d over one connection a request (ratio %.2f); %.0f microseconds of processor a request\n",
        $clients, $direct, $through, $through / $direct, $fresh, $fresh / $direct, $each;
}
for my $clients (1, 8, 64) {
    my $before = ran();
    my ($rate, $sum) = all($clients, sub { dial($proxy) }, sub { get(${$_[0]}, $refused, $denied) });
    printf "speed: %d denials a second at %d clients, %.0f microseconds of processor each\n", $rate, $clients, (ran() - $before) / $sum * 1e6;
}
{
    my $take = sub { sysread(${$_[0]}, my $bytes, 262144) or die "speed: the bytes broke off\n" };
    my ($direct) = all(1, sub { my $link = dial($port{many}); syswrite $link, 'go'; $link }, $take);
    my $before = ran();
    my ($through, $sum) = all(1, sub {
        my $link = dial($proxy);
        get($link, "CONNECT 127.0.0.1:$port{many} HTTP/1.1\r\nHost: a\r\n\r\n", 39);
        syswrite $link, 'go';
        $link;
    }, $take);
    printf "speed: one tunnel: %.0f MB a second, %.0f without a proxy (ratio %.2f); %.2f seconds of processor for 1 GB\n", $through / 1e6, $direct / 1e6, $through / $direct, (ran() - $before) / $sum * 1e9;
}
if (system('strace -V >/dev/null 2>&1') == 0) {
    for my $measure (['GET of 1 KiB', $request, $proxied], ['denial', $refused, $denied]) {
        my ($what, $text, $length) = @$measure;
        my $link = dial($proxy);
        get($link, $text, $length);
        my $tracer = fork // die "no fork: $!";
        if (!$tracer) {
            open STDERR, '>', '/dev/null';
            exec 'strace', '-f', '-c', '-o', 'calls', '-p', $server or POSIX::_exit(127);
        }
        sleep 2;
        get($link, $text, $length) for 1 .. 200;
        kill 'INT', $tracer;
        waitpid $tracer, 0;
        my %calls;
        for (split /\n/, slurp('calls')) {
            $calls{$2} = $1 / 200 if /^\s*[\d.]+\s+[\d.]+\s+\d+\s+(\d+)(?:\s+\d+)?\s+(\w+)$/ && $2 ne 'total';
        }
        my $sum = 0;
        $sum += $_ for values %calls;
        printf "speed: system calls for a %s: %.1f (%s)\n", $what, $sum, join ', ', map { sprintf '%s %.2f', $_, $calls{$_} } sort { $calls{$b} <=> $calls{$a} || $a cmp $b } keys %calls;
        close $link;
    }
} else {
    print "speed: system calls are not counted, since there is no strace\n";
}
my $size = -s 'journal';
my ($entries) = `tail -n 1 journal` =~ /^(\d+)/;
stop();
printf "speed: the journal has %d bytes an entry; verified, it says %s", $size / $entries, `'$program' verify squid.conf journal`;
