<?php
/* What each colleague has still to do, for the head of the office. */
require_once 'lib/tasks.php';
require_once 'lib/html.php';

const MOST = 20;

class Report
{
    private $counts = [];

    public function __construct(array $tasks)
    {
        foreach ($tasks as $task) {
            $owner = $task['owner'];
            $this->counts[$owner] = (isset($this->counts[$owner]) ? $this->counts[$owner] : 0) + 1;
        }
    }

    public function rows(): array
    {
        $rows = [];
        foreach ($this->counts as $owner => $count) {
            if (count($rows) >= MOST) {
                break;
            }
            $rows[] = cell($owner) . cell($count);
        }
        return $rows;
    }
}

$report = new Report(all_tasks());
$title = 'Report';
include 'templates/head.php';
foreach ($report->rows() as $row) {
    echo "<tr>$row</tr>\n";
}
