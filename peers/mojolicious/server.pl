#!/usr/bin/perl
# An echo server over Mojolicious: server.pl PORT.
use Mojolicious::Lite -signatures;
use Mojo::Server::Daemon;

my $limit = 16 * 1024 * 1024;    # bytes of a message

websocket '/*any' => {any => ''} => sub ($controller) {
    $controller->tx->max_websocket_size($limit);
    $controller->on(text   => sub ($controller, $bytes) { $controller->send({text   => $bytes}) });
    $controller->on(binary => sub ($controller, $bytes) { $controller->send({binary => $bytes}) });
};

app->log->level('warn');
my $daemon = Mojo::Server::Daemon->new(app => app, listen => ["http://127.0.0.1:$ARGV[0]"], silent => 1);
$daemon->start;
$| = 1;
print "listening\n";
$daemon->run;
