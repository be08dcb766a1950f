<?php
// Random scripts of calls by the extension sysvmsg, as tests/script.c has them.
$first = (int)($argv[1] ?? 1);
$runs = (int)($argv[2] ?? 1);
$key = 0x45000000 + (getmypid() & 0xffff) * 16;
$state = 0;
$queues = [];

function below(int $below): int {
    global $state;
    $state = ($state * 1103515245 + 12345) % 4294967296;
    return intdiv($state, 65536) % $below;
}

function told(string $call, $result, int $error = 0): void {
    echo $call, ' ', json_encode($result), ' ', $error, "\n";
}

function get(): void {
    global $queues, $key;
    $place = below(3);
    told('exists', msg_queue_exists($key + $place));
    if (!msg_queue_exists($key + $place)) {
        $queues[$place] = msg_get_queue($key + $place, 0600);
        told('new', $queues[$place] !== false);
        told('set', msg_set_queue($queues[$place], ['msg_qbytes' => 4096]));
    }
}

function queue() {
    global $queues;
    return $queues[below(3)] ?? null;
}

function sends(): void {
    if (!($queue = queue())) return;
    $text = '';
    for ($i = below(200); $i > 0; $i--) $text .= chr(97 + below(26));
    $error = 0;
    told('send', @msg_send($queue, below(10) ? 1 + below(5) : 0, $text, false, false, $error), $error);
}

function receives(): void {
    if (!($queue = queue())) return;
    $flags = MSG_IPC_NOWAIT | (below(3) ? 0 : MSG_NOERROR) | (below(3) ? 0 : MSG_EXCEPT);
    $type = $text = null;
    $error = 0;
    $right = @msg_receive($queue, below(13) - 6, $type, 1 + below(300), $text, false, $flags, $error);
    told('receive', $right, $error);
    if ($right) told("type $type", $text);
}

function shows(): void {
    if (!($queue = queue())) return;
    $stat = @msg_stat_queue($queue);
    if (!$stat) { told('stat', false); return; }
    told('stat', [$stat['msg_qnum'], $stat['msg_qbytes'], $stat['msg_stime'] != 0,
        $stat['msg_rtime'] != 0, $stat['msg_lspid'] == getmypid(),
        $stat['msg_lrpid'] == getmypid(), $stat['msg_perm.mode'] & 0777]);
}

function changes(): void {
    if (!($queue = queue())) return;
    told('set', @msg_set_queue($queue, ['msg_qbytes' => below(2000), 'msg_perm.mode' => 0600]));
}

$probe = msg_get_queue($key + 9, 0600);
if (!$probe || !msg_remove_queue($probe)) {
    fwrite(STDERR, "no queues\n");
    exit(1);
}
for ($seed = $first; $seed < $first + $runs; $seed++) {
    $state = $seed;
    $queues = [];
    echo "seed $seed\n";
    for ($i = 0; $i < 80; $i++) {
        $which = below(20);
        if ($which < 4) get();
        elseif ($which < 9) sends();
        elseif ($which < 14) receives();
        elseif ($which < 16) shows();
        elseif ($which < 17) changes();
        elseif ($which < 18 && ($queue = queue())) told('remove', @msg_remove_queue($queue));
    }
    foreach ($queues as $queue) told('end', @msg_remove_queue($queue));
}
