/* A producer and a consumer on librdkafka that are alive at once, beside others: tests/clients compiles and runs it.

       client BROKERS TOPIC COUNT

   It produces COUNT records to partition 0, each behind the one before, of which each third is a delete; the consumer must get each
   of them before the next is produced, and commits its offset. The topic is empty before. Status 0, or 1 with a line of what
   differs. */
#include <stdio.h>
#include <stdlib.h>
#include <string.h>
#include <librdkafka/rdkafka.h>

enum { WAIT_MS = 15000, TEXT = 64 };

static void fail(const char *what, const char *why) {
    fprintf(stderr, "%s: %s\n", what, why);
    exit(1);
}

static void check(rd_kafka_resp_err_t code, const char *what) {
    if (code != RD_KAFKA_RESP_ERR_NO_ERROR)
        fail(what, rd_kafka_err2str(code));
}

static void set(rd_kafka_conf_t *conf, const char *name, const char *value) {
    char why[256];
    if (rd_kafka_conf_set(conf, name, value, why, sizeof why) != RD_KAFKA_CONF_OK)
        fail(name, why);
}

static rd_kafka_t *client(rd_kafka_type_t type, rd_kafka_conf_t *conf) {
    char why[256];
    rd_kafka_t *made = rd_kafka_new(type, conf, why, sizeof why);
    if (!made)
        fail("rd_kafka_new", why);
    return made;
}

/* Keeps the offset that a record got. */
static void told(rd_kafka_t *producer, const rd_kafka_message_t *record, void *opaque) {
    (void)producer;
    (void)opaque;
    check(record->err, "a delivery");
    *(int64_t *)record->_private = record->offset;
}

static rd_kafka_t *producer_of(const char *brokers) {
    rd_kafka_conf_t *conf = rd_kafka_conf_new();
    set(conf, "bootstrap.servers", brokers);
    set(conf, "enable.idempotence", "true");
    set(conf, "linger.ms", "0");
    rd_kafka_conf_set_dr_msg_cb(conf, told);
    return client(RD_KAFKA_PRODUCER, conf);
}

static rd_kafka_t *consumer_of(const char *brokers, const char *topic) {
    rd_kafka_conf_t *conf = rd_kafka_conf_new();
    set(conf, "bootstrap.servers", brokers);
    set(conf, "group.id", topic);
    set(conf, "enable.auto.commit", "false");
    rd_kafka_t *made = client(RD_KAFKA_CONSUMER, conf);
    rd_kafka_topic_partition_list_t *places = rd_kafka_topic_partition_list_new(1);
    rd_kafka_topic_partition_list_add(places, topic, 0)->offset = RD_KAFKA_OFFSET_BEGINNING;
    check(rd_kafka_assign(made, places), "assign");
    rd_kafka_topic_partition_list_destroy(places);
    return made;
}

/* Of each third record there is none. */
static const char *value_of(int number, char *text) {
    snprintf(text, TEXT, "%d", number * 3);
    return number % 3 == 2 ? NULL : text;
}

static void produce(rd_kafka_t *producer, const char *topic, int number) {
    char key[TEXT], text[TEXT];
    const char *value = value_of(number, text);
    int64_t offset = -1;
    snprintf(key, sizeof key, "key%d", number);
    check(rd_kafka_producev(producer, RD_KAFKA_V_TOPIC(topic), RD_KAFKA_V_PARTITION(0), RD_KAFKA_V_KEY(key, strlen(key)),
                            RD_KAFKA_V_VALUE((void *)value, value ? strlen(value) : 0),
                            RD_KAFKA_V_MSGFLAGS(RD_KAFKA_MSG_F_COPY), RD_KAFKA_V_OPAQUE(&offset), RD_KAFKA_V_END),
          "producev");
    check(rd_kafka_flush(producer, WAIT_MS), "flush");
    if (offset != number)
        fail(key, "another offset");
}

static void consume(rd_kafka_t *consumer, int number) {
    char key[TEXT], text[TEXT];
    const char *value = value_of(number, text);
    snprintf(key, sizeof key, "key%d", number);
    rd_kafka_message_t *got = rd_kafka_consumer_poll(consumer, WAIT_MS);
    if (!got)
        fail(key, "nothing comes");
    check(got->err, key);
    if (got->offset != number || got->key_len != strlen(key) || memcmp(got->key, key, got->key_len))
        fail(key, "another offset or key");
    if ((got->payload == NULL) != (value == NULL) || (value && (got->len != strlen(value) || memcmp(got->payload, value, got->len))))
        fail(key, "another value");
    check(rd_kafka_commit_message(consumer, got, 0), "commit");
    rd_kafka_message_destroy(got);
}

static void check_committed(rd_kafka_t *consumer, const char *topic, int count) {
    rd_kafka_topic_partition_list_t *places = rd_kafka_topic_partition_list_new(1);
    rd_kafka_topic_partition_list_add(places, topic, 0);
    check(rd_kafka_committed(consumer, places, WAIT_MS), "committed");
    if (places->elems[0].offset != count)
        fail(topic, "another offset is committed");
    rd_kafka_topic_partition_list_destroy(places);
}

int main(int count, char **words) {
    if (count != 4)
        fail("usage", "client BROKERS TOPIC COUNT");
    int records = atoi(words[3]);
    rd_kafka_t *consumer = consumer_of(words[1], words[2]);
    rd_kafka_t *producer = producer_of(words[1]);
    for (int number = 0; number < records; number++) {
        produce(producer, words[2], number);
        consume(consumer, number);
    }
    check_committed(consumer, words[2], records);
    check(rd_kafka_consumer_close(consumer), "close");
    rd_kafka_destroy(consumer);
    rd_kafka_destroy(producer);
    return 0;
}
