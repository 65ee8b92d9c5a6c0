<?php
session_start();
if (isset($_POST['user'])) {
    $_SESSION['user'] = $_POST['user'];
    header('Location: index.php');
    exit;
}
?>
<form method="post" action="login.php">
<label>Name <input name="user"></label>
<button>Sign in</button>
</form>
