<!DOCTYPE html>
<title><?= htmlspecialchars($title) ?></title>
<link rel="stylesheet" href="style.css">
<h1><?= htmlspecialchars($title) ?></h1>
