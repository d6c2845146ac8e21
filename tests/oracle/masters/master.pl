#!/usr/bin/env perl
# A PROFIBUS DP master of class 1 in Perl, for a line of a rack that is served.
#
# README.md in this folder gives its words, its environment and what it writes. The code uses core modules only, and shares
# nothing with the rest of the repository. Each slave has a state, and a table gives for each state the request to send and
# the state that follows the reply.
use strict;
use warnings;
use Getopt::Long qw(GetOptionsFromArray);
use IO::Handle;
use IO::Select;
use IO::Socket::INET;
use Socket qw(IPPROTO_TCP TCP_NODELAY);
use Text::ParseWords qw(shellwords);
use Time::HiRes qw(time sleep);

# Frame control octets (IEC 61158-4-3): SRD high as the first request to a station, SRD high with FCV, SDN high; FCB.
my ($FC_SRD_FIRST, $FC_SRD, $FC_SDN, $FCB) = (0x6D, 0x5D, 0x46, 0x20);
# Functions of replies; SC has none, and is -1 here.
my ($SC, $OK, $RR, $RS, $DL, $DH) = (-1, 0, 2, 3, 8, 10);
my $MOST_RETRIES = 3;
# Seconds until a slave that does not exchange data gets its next request.
my $PACE = 0.02;
# A Global_Control follows once in this number of cycles.
my $CYCLES_PER_CONTROL = 10;

my %option = ('min-tsdr' => 11, slot => 100, cycle => 5, sync => '0', freeze => '0');
my ($port, $me, @slaves) = words();
my ($sync_groups, $freeze_groups) = (hex $option{sync}, hex $option{freeze});
my ($socket, $select, $input, $settle, $strays) = (undef, undef, '', 0, 0);
my ($stop, $deadline) = (0, time + $option{seconds});
$SIG{TERM} = sub { $stop = 1 };
$SIG{PIPE} = 'IGNORE';

# What a slave is asked in each state: [access point or undef for the default, octets, the state behind the reply].
my %machine = (
    probe    => [60, sub { '' },           \&probed],
    set_prm  => [61, \&parameters,         sub { $_[1]{code} == $SC ? 'chk_cfg' : 'probe' }],
    chk_cfg  => [62, sub { $_[0]{cfg} },   sub { $_[1]{code} == $SC ? 'confirm' : 'probe' }],
    confirm  => [60, sub { '' },           \&confirmed],
    exchange => [undef, \&outputs,         \&exchanged],
    report   => [60, sub { '' },           \&reported],
    unfit    => [60, sub { '' },           sub { 'unfit' }],
);

until (done()) {
    if (!connect_line()) {
        sleep 0.1;
        next;
    }
    eval { serve(); depart(); 1 } or $@ =~ /^line ended/ or die $@;
    close $socket;
}
exit report();

# --- words -----------------------------------------------------------------------------------------------------------

sub words {
    my @words = @ARGV;
    if (!@words) {
        my @slaves = map { slave_word($_) } split(' ', variable('RACKD_SLAVE_ADDRESSES'));
        @words = (variable('RACKD_PORT'), variable('RACKD_ADDRESS'), @slaves, shellwords($ENV{MASTER_OPTIONS} // ''));
    }
    GetOptionsFromArray(\@words, \%option, 'seconds=f', 'exchanges=i', 'sync=s', 'freeze=s', 'unlock', 'min-tsdr=i', 'slot=i',
        'cycle=i') or usage('an option is wrong');
    usage('a port, an address and slaves are needed') if @words < 3;
    my ($a_port, $address, @rest) = @words;
    $option{seconds} //= defined $option{exchanges} ? 30 : 2;
    return ($a_port, $address, map { new_slave($_) } @rest);
}

sub variable {
    my ($name) = @_;
    return $ENV{$name} // usage("there are no words, and the variable $name is missing");
}

# The word for a slave of the environment.
sub slave_word {
    my ($address) = @_;
    my ($ident, $cfg, $outputs, $watchdog, $group) =
        map { variable("RACKD_SLAVE_${address}_$_") } qw(IDENT CFG OUTPUTS WATCHDOG_MS GROUP);
    return sprintf('%d:%x:%s:%d:%d:%x', $address, $ident, $cfg eq '' ? '-' : $cfg, length($outputs) / 2, $watchdog, $group);
}

sub usage {
    print STDERR "master.pl: $_[0]\n";
    exit 2;
}

sub new_slave {
    my ($word) = @_;
    $word =~ /^(\d+):([0-9a-f]{1,4}):((?:[0-9a-f]{2})+|-):(\d+):(\d+):([0-9a-f]{1,2})$/i
        or usage("$word is no ADDRESS:IDENT:CFG:OUTPUTS:WATCHDOG:GROUPS");
    return {
        address => $1, ident => hex $2, cfg => ($3 eq '-' ? '' : pack('H*', $3)), outputs => $4, watchdog => $5,
        groups => hex $6, exchanges => 0, starts => 0, diagnoses => 0, retries => 0, losses => 0, turn => 0,
    };
}

# --- the life of a slave ---------------------------------------------------------------------------------------------

# The diagnosis in a reply, or nothing if it has none.
sub diagnosis {
    my ($slave, $reply) = @_;
    return unless ($reply->{code} == $DL || $reply->{code} == $DH) && length $reply->{data} >= 6;
    my ($first, $second, undef, $holder, $ident) = unpack 'C4 n', $reply->{data};
    $slave->{diagnoses}++;
    return {
        holder => $holder, ident => $ident, running => !($first & 0x02) && !($second & 0x01),
        faulty => ($first & 0x54) != 0, free => $holder == 255, mine => $holder == $me,
    };
}

sub probed {
    my ($slave, $reply) = @_;
    my $seen = diagnosis($slave, $reply) or return 'probe';
    return $seen->{free} || $seen->{mine} ? 'set_prm' : 'probe';
}

sub parameters {
    my ($slave) = @_;
    my $station = 0x80;
    $station |= 0x20 if $slave->{groups} & $sync_groups;
    $station |= 0x10 if $slave->{groups} & $freeze_groups;
    my ($one, $two) = (0, 0);
    if ($slave->{watchdog} > 0) {
        $station |= 0x08;
        my $units = int(($slave->{watchdog} + 9) / 10);
        $one = int(($units + 254) / 255);
        $two = int(($units + $one - 1) / $one);
    }
    return pack 'C4 n C', $station, $one, $two, $option{'min-tsdr'}, $slave->{ident}, $slave->{groups};
}

sub confirmed {
    my ($slave, $reply) = @_;
    my $seen = diagnosis($slave, $reply) or return 'confirm';
    return 'probe' if !$seen->{mine} || $seen->{faulty};
    return 'confirm' unless $seen->{running};
    $slave->{starts}++;
    $slave->{operate} = 1;
    return 'exchange';
}

sub outputs {
    my ($slave) = @_;
    my $turn = $slave->{turn}++;
    return pack 'C*', map { ($turn ^ $_) & 0xFF } 1 .. $slave->{outputs};
}

sub exchanged {
    my ($slave, $reply) = @_;
    my $code = $reply->{code};
    return 'probe' if $code == $RS;
    # The slave does not take this number of octets. Only its diagnosis is read from now on.
    return 'unfit' unless grep { $code == $_ } $SC, $OK, $DL, $DH;
    $slave->{exchanges}++;
    return $code == $DH ? 'report' : 'exchange';
}

sub reported {
    my ($slave, $reply) = @_;
    my $seen = diagnosis($slave, $reply) or return 'report';
    return $seen->{mine} && $seen->{running} ? 'exchange' : 'probe';
}

sub set_state {
    my ($slave, $state) = @_;
    my $waits = $state eq $slave->{state} && $state ne 'exchange' || $state eq 'probe';
    $slave->{earliest} = $waits ? time + $PACE : 0;
    $slave->{state} = $state;
}

# --- the cycle -------------------------------------------------------------------------------------------------------

sub done {
    return 1 if $stop || time >= $deadline;
    return 0 unless defined $option{exchanges};
    return !grep { $_->{exchanges} < $option{exchanges} } @slaves;
}

sub serve {
    for my $slave (@slaves) {
        @$slave{qw(state earliest fcb alive operate)} = ('probe', 0, undef, 0, 0);
    }
    for (my $cycle = 1; !done(); $cycle++) {
        for my $slave (@slaves) {
            next if time < $slave->{earliest};
            turn($slave);
            turn($slave) if $slave->{state} eq 'report' && !$slave->{earliest};
        }
        operate();
        control(0x20, 0x08) unless $cycle % $CYCLES_PER_CONTROL;
        sleep $option{cycle} / 1000;
    }
}

# Sends the request of the slave's state, and takes the next state from the reply.
sub turn {
    my ($slave) = @_;
    my ($point, $octets, $next) = @{ $machine{ $slave->{state} } };
    my $reply = request($slave, $point, $octets->($slave));
    if (!defined $reply) {
        set_state($slave, 'probe');
    } elsif ($reply->{code} == $RR) {
        $slave->{earliest} = time + $PACE;
    } else {
        set_state($slave, $next->($slave, $reply));
    }
}

# Once a slave has begun to exchange data, all are told that the master is in Operate: no Clear_Data, all groups.
sub operate {
    my @begun = grep { $_->{operate} && $_->{state} eq 'exchange' } @slaves or return;
    $_->{operate} = 0 for @begun;
    global_control(0, 0);
}

# Sends the commands to the groups of slaves that exchange data, in one telegram if the groups are the same.
sub control {
    my ($sync, $freeze) = @_;
    my $active = 0;
    $active |= $_->{groups} for grep { $_->{state} eq 'exchange' || $_->{state} eq 'report' } @slaves;
    my ($synced, $frozen) = ($sync_groups & $active, $freeze_groups & $active);
    if ($synced && $frozen && $sync_groups == $freeze_groups) {
        global_control($sync | $freeze, $sync_groups);
        return;
    }
    global_control($freeze, $freeze_groups) if $frozen;
    global_control($sync, $sync_groups) if $synced;
}

sub depart {
    control(0x10, 0x04);
    return unless $option{unlock};
    for my $slave (grep { $_->{state} eq 'exchange' || $_->{state} eq 'report' } @slaves) {
        my $octets = parameters($slave);
        substr $octets, 0, 3, "\x40\x00\x00";
        request($slave, 61, $octets);
    }
}

sub report {
    my $least = $option{exchanges} || 1;
    my $status = 0;
    for my $slave (@slaves) {
        print "slave $slave->{address}", map({ " $_ $slave->{$_}" } qw(exchanges starts diagnoses retries losses)), "\n";
        $status = 1 if $slave->{exchanges} < $least;
    }
    print "master $me strays $strays\n";
    return $status;
}

# --- telegrams -------------------------------------------------------------------------------------------------------

sub connect_line {
    $socket = IO::Socket::INET->new(PeerAddr => '127.0.0.1', PeerPort => $port, Proto => 'tcp', Timeout => 5) or return 0;
    setsockopt $socket, IPPROTO_TCP, TCP_NODELAY, pack('l', 1);
    $select = IO::Select->new($socket);
    $input = '';
    $settle = 0;
    syswrite $socket, chr $me;
    my $answer = '';
    if ($select->can_read(10) && sysread($socket, $answer, 1) && $answer eq "\xE5") {
        return 1;
    }
    close $socket;
    return 0;
}

sub telegram {
    my ($station, $control, $point, $octets) = @_;
    my $high = defined $point ? 0x80 : 0;
    my $body = pack 'C3', $station | $high, $me | $high, $control;
    $body .= pack 'C2', $point, 62 if defined $point;
    $body .= $octets;
    my $sum = unpack '%8C*', $body;
    my $length = length $body;
    return pack('C', 0x10) . $body . pack('C2', $sum, 0x16) if $length == 3;
    return pack('C4', 0x68, $length, $length, 0x68) . $body . pack('C2', $sum, 0x16);
}

sub transmit {
    my ($octets) = @_;
    while (length $octets) {
        my $count = syswrite $socket, $octets;
        die "line ended\n" unless defined $count;
        substr $octets, 0, $count, '';
    }
}

sub take_input {
    my $count = sysread $socket, $input, 4096, length $input;
    return if !defined $count && $!{EINTR};
    die "line ended\n" unless $count;
}

sub drop_late_input {
    take_input() while $select->can_read(0);
    $strays++ if length $input;
    $input = '';
}

sub global_control {
    my ($command, $groups) = @_;
    drop_late_input();
    transmit(telegram(127, $FC_SDN, 58, pack 'C2', $command, $groups));
}

# Sends a request of SRD, with retries if the slave answered before. Returns the reply, or nothing if the slave is lost.
sub request {
    my ($slave, $point, $octets) = @_;
    my $control = defined $slave->{fcb} ? $FC_SRD | ($slave->{fcb} ? $FCB : 0) : $FC_SRD_FIRST;
    my $telegram = telegram($slave->{address}, $control, $point, $octets);
    if ($settle) {
        sleep $option{slot} / 4000;
        $settle = 0;
    }
    my $sends = $slave->{alive} ? 1 + $MOST_RETRIES : 1;
    for my $send (1 .. $sends) {
        drop_late_input();
        if ($send > 1) {
            $slave->{retries}++;
            $settle = 1;
        }
        transmit($telegram);
        my $reply = await($slave->{address}, $point) or next;
        $slave->{fcb} = defined $slave->{fcb} ? 1 - $slave->{fcb} : 0;
        $slave->{alive} = 1;
        return $reply;
    }
    $slave->{losses}++ if $slave->{alive};
    $settle = 1 if $slave->{alive};
    @$slave{qw(fcb alive)} = (undef, 0);
    return;
}

# The reply of the station within the slot time, or nothing.
sub await {
    my ($station, $point) = @_;
    my $last = time + $option{slot} / 1000;
    while (1) {
        while (defined(my $body = next_body())) {
            my $reply = match($body, $station, $point);
            return $reply if $reply;
            $strays++;
        }
        my $rest = $last - time;
        return if $rest <= 0;
        take_input() if $select->can_read($rest);
    }
}

# Cuts the next whole telegram from the input: '' for SC, else what is between the start and the check sequence.
sub next_body {
    while (length $input) {
        my $start = ord $input;
        if ($start == 0xE5) {
            substr $input, 0, 1, '';
            return '';
        }
        my ($head, $length);
        if ($start == 0x68) {
            return if length $input < 4;
            my (undef, $one, $two, $again) = unpack 'C4', $input;
            ($head, $length) = (4, $one) if $one == $two && $one >= 4 && $again == 0x68;
        } elsif ($start == 0x10) {
            ($head, $length) = (1, 3);
        } elsif ($start == 0xA2) {
            ($head, $length) = (1, 11);
        }
        if (!defined $head) {
            substr $input, 0, 1, '';
            next;
        }
        return if length $input < $head + $length + 2;
        my $whole = substr $input, 0, $head + $length + 2, '';
        my $body = substr $whole, $head, $length;
        my ($sum, $end) = unpack 'C2', substr $whole, $head + $length;
        return $body if $end == 0x16 && $sum == unpack '%8C*', $body;
    }
    return;
}

# The reply, if the octets are one from this station and point to this master.
sub match {
    my ($body, $station, $point) = @_;
    return { code => $SC, data => '' } if $body eq '';
    my ($to, $from, $code) = unpack 'C3', $body;
    return if ($to & 0x7F) != $me || ($from & 0x7F) != $station || $code > 15;
    my $data = substr $body, 3;
    my $extended = ($to & 0x80) && ($from & 0x80);
    if ($extended) {
        return unless defined $point && length $data >= 2 && substr($data, 0, 2, '') eq pack 'C2', 62, $point;
    } elsif (($to | $from) & 0x80 || defined $point && length $data) {
        return;
    }
    return { code => $code, data => $data };
}
