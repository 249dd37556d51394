/* The calls on message queues.
 *
 * A message carries its value in its first bytes. Of lengths only that counts which is above the queue's greatest, so that a short
 * message stands for a long one: the kernel gives a user little room for messages.
 */
#include "runner.h"

#include <string.h>

enum { VALUE_BYTES = 16, MOST_BYTES = 64, MESSAGE_BYTES = VALUE_BYTES + MOST_BYTES + 1 };

static size_t shortened(int64_t length) { return VALUE_BYTES + (size_t)(length > MOST_BYTES ? MOST_BYTES : length); }

size_t queue_bytes(int64_t queue) { return shortened(queue_greatest[queue]); }

/* A message that is too long for its queue stays too long. */
size_t message_bytes(int64_t queue, int64_t length) {
  return length > queue_greatest[queue] ? queue_bytes(queue) + 1 : shortened(length);
}

/* The operands: the queue, the length, the priority, the value and, where `until` is given, the timeout. */
static Answer send_message(Thread *me, Frame *frame, const int64_t *operands, const struct timespec *until) {
  (void)me;
  char message[MESSAGE_BYTES];
  memset(message, 0, sizeof message);
  int64_t value = number_of(frame, operands + 3);
  memcpy(message, &value, sizeof value);
  size_t length = message_bytes(operands[0], operands[1]);
  unsigned priority = (unsigned)operands[2];
  mqd_t queue = queues[operands[0]];
  return answer_by_errno(until == NULL ? mq_send(queue, message, length, priority)
                                       : mq_timedsend(queue, message, length, priority, until));
}

Answer call_mq_send(Thread *me, Frame *frame, const int64_t *operands) { return send_message(me, frame, operands, NULL); }

Answer call_mq_timedsend(Thread *me, Frame *frame, const int64_t *operands) {
  struct timespec until = time_of(time_out_of(me, number_of(frame, operands + 5)) + realtime_offset);
  return send_message(me, frame, operands, &until);
}

static Answer receive_message(int64_t queue, const struct timespec *until) {
  char message[MESSAGE_BYTES];
  ssize_t length = until == NULL ? mq_receive(queues[queue], message, MESSAGE_BYTES, NULL)
                                 : mq_timedreceive(queues[queue], message, MESSAGE_BYTES, NULL, until);
  if (length < 0) return answer_of(errno);
  Answer answer = {0, 0};
  memcpy(&answer.value, message, sizeof answer.value);
  return answer;
}

Answer call_mq_receive(Thread *me, Frame *frame, const int64_t *operands) {
  (void)me, (void)frame;
  return receive_message(operands[0], NULL);
}

Answer call_mq_timedreceive(Thread *me, Frame *frame, const int64_t *operands) {
  struct timespec until = time_of(time_out_of(me, number_of(frame, operands + 1)) + realtime_offset);
  return receive_message(operands[0], &until);
}

Answer call_mq_notify(Thread *me, Frame *frame, const int64_t *operands) {
  (void)me;
  struct sigevent event;
  memset(&event, 0, sizeof event);
  event.sigev_notify = SIGEV_SIGNAL;
  event.sigev_signo = SIGRTMIN + (int)operands[1];
  event.sigev_value.sival_ptr = (void *)(intptr_t)number_of(frame, operands + 2);
  return answer_by_errno(mq_notify(queues[operands[0]], &event));
}
