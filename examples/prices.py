"""Writes prices to a topic and reads them back, with kafka-python.

    python3 examples/prices.py [HOST:PORT]
"""
import sys

from kafka import KafkaConsumer, KafkaProducer, TopicPartition

# the versions of requests that Kafka 0.11 has, without asking the broker
SETTINGS = {
    "bootstrap_servers": sys.argv[1] if len(sys.argv) > 1 else "127.0.0.1:9092",
    "api_version": (0, 11, 0),
}


def write(prices):
    producer = KafkaProducer(acks=1, **SETTINGS)
    for fruit, price in prices:
        producer.send("prices", key=fruit.encode(), value=price and price.encode()).get(timeout=10)
    producer.close()


def read():
    consumer = KafkaConsumer(group_id=None, consumer_timeout_ms=1000, **SETTINGS)
    partition = TopicPartition("prices", 0)
    consumer.assign([partition])
    consumer.seek_to_beginning(partition)
    for record in consumer:
        price = record.value.decode() if record.value is not None else "(deleted)"
        print(f"{record.offset} {record.key.decode()} {price}")
    consumer.close()


write([("apple", "3"), ("pear", "2"), ("plum", "5"), ("apple", "4"), ("plum", None)])
read()
