<?php
// Publishes an order to the shop, confirmed, and takes it from `audit`, with php-amqplib: the Debian packages php-amqplib and php-cli.
// The mechanism is PLAIN.
require_once "PhpAmqpLib/autoload.php";

use PhpAmqpLib\Connection\AMQPStreamConnection;
use PhpAmqpLib\Message\AMQPMessage;

$connection = new AMQPStreamConnection("127.0.0.1", $argv[1], "till", "till", "/", false, "PLAIN");
$channel = $connection->channel();
$channel->confirm_select();
$channel->basic_publish(new AMQPMessage("by php-amqplib"), "shop", "orders.new");
$channel->wait_for_pending_acks(3);
$message = $channel->basic_get("audit");
$channel->basic_ack($message->getDeliveryTag());
echo $message->body, "\n";
$connection->close();
