<?php
// Declares, binds, publishes with confirms and consumes, as php-amqplib's demos do: the Debian packages php-amqplib and php-cli.
require_once "PhpAmqpLib/autoload.php";

use PhpAmqpLib\Connection\AMQPStreamConnection;
use PhpAmqpLib\Message\AMQPMessage;

$connection = new AMQPStreamConnection("127.0.0.1", $argv[1], "till", "till");
$channel = $connection->channel();
$channel->exchange_declare("payments", "direct", false, true, false);
$channel->queue_declare("billing", false, true, false, false);
$channel->queue_bind("billing", "payments", "paid");
$channel->confirm_select();
$channel->basic_publish(new AMQPMessage("by php-amqplib", ["delivery_mode" => 2]), "payments", "paid");
$channel->wait_for_pending_acks(10);
$channel->basic_consume("billing", "", false, false, false, false, function ($message) {
    $message->ack();
    echo $message->body, "\n";
});
$channel->wait(null, false, 10);
$channel->close();
$connection->close();
