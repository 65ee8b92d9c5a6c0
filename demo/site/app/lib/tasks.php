<?php
// Tasks stand in a table of their own.
function all_tasks()
{
    return less_all('tasks');
}

function tasks_of($user)
{
    return less_find('tasks', 'owner', $user);
}

function add_task($user, $title)
{
    return less_insert('tasks', ['owner' => $user, 'title' => $title, 'done' => 0]);
}

function finish_task(int $id)
{
    $task = less_get('tasks', $id);
    if ($task === null || $task['done'] == 1) {
        return false;
    }
    return less_update('tasks', $id, ['done' => 1]);
}

// Nobody calls this any more.
function import_old_tasks($text)
{
    foreach (explode("\n", $text) as $line) {
        switch (substr($line, 0, 1)) {
            case '#':
                continue 2;
            case '':
                break 2;
            default:
                add_task('office', $line);
        }
    }
}
