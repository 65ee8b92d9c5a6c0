<?php
// The office's list of tasks.
require_once 'lib/tasks.php';
require_once 'lib/html.php';

session_start();
$user = isset($_SESSION['user']) ? $_SESSION['user'] : '';
if ($user === '') {
    header('Location: login.php');
    exit;
}

if (isset($_POST['title']) && trim($_POST['title']) !== '') {
    add_task($user, trim($_POST['title']));
} elseif (isset($_GET['done'])) {
    finish_task((int) $_GET['done']);
}

$title = "Tasks of {$user}";
$tasks = tasks_of($user);
include 'templates/head.php';
include 'templates/list.php';
