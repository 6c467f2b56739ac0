#!/usr/bin/perl
# A chat over Mojolicious, which doesn't echo: application.pl PORT. It greets, asks whether the other is there, and sends
# what comes to all, with a word before it.
use Mojolicious::Lite -signatures;
use Mojo::Server::Daemon;
use Mojo::WebSocket qw(WS_PING);

my $limit = 16 * 1024 * 1024;    # bytes of a message
my %members;

sub tell_all ($kind, $bytes) {
    $_->send({$kind => $bytes}) for values %members;
}

websocket '/*any' => {any => ''} => sub ($controller) {
    my $connection = $controller->tx;
    $connection->max_websocket_size($limit);
    $members{$connection} = $connection;
    $connection->send({text => 'welcome'});
    $connection->send([1, 0, 0, 0, WS_PING, 'there?']);
    $controller->on(text   => sub ($controller, $bytes) { tell_all(text   => "someone said $bytes") });
    $controller->on(binary => sub ($controller, $bytes) { tell_all(binary => "some bytes: $bytes") });
    $controller->on(finish => sub ($controller, @) { delete $members{$connection} });
};

app->log->level('warn');
my $daemon = Mojo::Server::Daemon->new(app => app, listen => ["http://127.0.0.1:$ARGV[0]"], silent => 1);
$daemon->start;
$| = 1;
print "listening\n";
$daemon->run;
