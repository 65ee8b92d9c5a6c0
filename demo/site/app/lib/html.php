<?php
function cell($text)
{
    return '<td>' . htmlspecialchars($text) . '</td>';
}

function link_to($path, $text)
{
    return "<a href=\"$path\">" . htmlspecialchars($text) . '</a>';
}
