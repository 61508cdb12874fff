# Publishes an order to the shop, confirmed, and takes it from `audit`, with bunny: the Debian package ruby-bunny. Its queue is
# declared passively.
require "bunny"

connection = Bunny.new(host: "127.0.0.1", port: ARGV[0].to_i, user: "till", pass: "till", automatically_recover: false)
connection.start
channel = connection.create_channel
channel.confirm_select
shop = Bunny::Exchange.new(channel, :topic, "shop", no_declare: true)
shop.publish("by bunny", routing_key: "orders.new")
channel.wait_for_confirms or abort("not confirmed")
delivery, _, body = channel.queue("audit", passive: true).pop(manual_ack: true)
channel.ack(delivery.delivery_tag)
puts body
connection.close
