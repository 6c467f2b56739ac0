#!/usr/bin/perl
# A test client over Mojolicious: client.pl ws://HOST:PORT.
use Mojo::Base -strict, -signatures;
use Mojo::IOLoop;
use Mojo::UserAgent;

my $limit = 16 * 1024 * 1024;    # bytes of a message
my $agent = Mojo::UserAgent->new;

# Tells a connection to a function, and waits for its end.
sub with_connection ($path, $begin) {
    $agent->websocket(
        $ARGV[0] . $path => sub ($agent, $tx) {
            return Mojo::IOLoop->stop unless $tx->is_websocket;
            $tx->max_websocket_size($limit);
            $tx->on(finish => sub { Mojo::IOLoop->stop });
            $begin->($tx);
        }
    );
    Mojo::IOLoop->start;
}

sub echo ($tx) {
    $tx->on(text   => sub ($tx, $bytes) { $tx->send({text   => $bytes}) });
    $tx->on(binary => sub ($tx, $bytes) { $tx->send({binary => $bytes}) });
}

my $count = 0;
with_connection('/getCaseCount', sub ($tx) { $tx->on(text => sub ($tx, $bytes) { $count = $bytes }) });
with_connection("/runCase?case=$_", \&echo) for 1 .. $count;
with_connection('/updateReports', \&echo);
