-- Which motors fail most? Each accepted result is of an instruction, which runs one motor or several: all of them are suspects.
select
    garage,
    motor,
    count(*) as runs,
    count(*) filter (where fields ->> 'outcome' <> 'done') as failed,
    round(100.0 * count(*) filter (where fields ->> 'outcome' <> 'done') / count(*), 1) as percent
from sent, jsonb_array_elements_text(fields -> 'of' -> 'motors') as motor
where name = 'result' and accepted
group by garage, motor
having count(*) filter (where fields ->> 'outcome' <> 'done') > 0
order by failed desc, percent desc, garage, motor;
