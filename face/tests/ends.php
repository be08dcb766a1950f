<?php
// An alarm ends a wait of the extension sysvmsg, in receive and send. With the argument "control"
// no signal is sent, and it waits for ever.
$is_control = ($argv[1] ?? '') === 'control';
$alarms = 0;
pcntl_async_signals(true);
pcntl_signal(SIGALRM, function () use (&$alarms) { $alarms++; });

function alarmed(): void {
    global $is_control;
    if (!$is_control) pcntl_alarm(1);
}

$queue = msg_get_queue(0x47000000 + (getmypid() & 0xffff), 0600);
if (!$queue) {
    fwrite(STDERR, "no queues\n");
    exit(1);
}
$type = $text = null;
$error = 0;
alarmed();
$right = @msg_receive($queue, 1, $type, 100, $text, false, 0, $error);
echo 'receive ', json_encode($right), ' ', $error, "\n";
while (@msg_send($queue, 2, str_repeat('x', 100), false, false, $error));
$error = 0;
alarmed();
$right = @msg_send($queue, 2, str_repeat('x', 100), false, true, $error);
echo 'send ', json_encode($right), ' ', $error, "\n";
echo 'alarms ', $alarms, ' removed ', json_encode(msg_remove_queue($queue)), "\n";
