Hi <?php echo 'x'; ?>
!