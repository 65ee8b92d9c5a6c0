<!doctype html>
<title>Office</title>
<h1><?= 'The office\'s page' ?></h1>
<?php
// The hours of the front desk; a comment is no part of the page.
echo '<p>Open from 9 to 17.</p>', "\n"; # since 2019
?>
<p>Served from the guest's copy.</p>
