<ul>
<?php foreach ($tasks as $task): ?>
<li><?= htmlspecialchars($task['title']) ?>
<?php if ($task['done'] == 0): ?>
<?= link_to('index.php?done=' . $task['id'], 'done') ?>
<?php endif; ?>
</li>
<?php endforeach; ?>
</ul>
<form method="post"><input name="title"><button>Add</button></form>
