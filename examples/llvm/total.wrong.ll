; A wrong rotation: the test before the loop is true for n = 0 too, and then a byte is added.

define i32 @total(i8* %bytes, i32 %n) {
entry:
  %cmp1 = icmp ule i32 0, %n
  br i1 %cmp1, label %for.body.lr.ph, label %for.end

for.body.lr.ph:                                   ; preds = %entry
  br label %for.body

for.body:                                         ; preds = %for.body.lr.ph, %for.body
  %i.03 = phi i32 [ 0, %for.body.lr.ph ], [ %inc, %for.body ]
  %sum.02 = phi i32 [ 0, %for.body.lr.ph ], [ %add, %for.body ]
  %idxprom = zext i32 %i.03 to i64
  %arrayidx = getelementptr inbounds i8, i8* %bytes, i64 %idxprom
  %0 = load i8, i8* %arrayidx, align 1
  %conv = zext i8 %0 to i32
  %add = add i32 %sum.02, %conv
  %inc = add i32 %i.03, 1
  %cmp = icmp ult i32 %inc, %n
  br i1 %cmp, label %for.body, label %for.cond.for.end_crit_edge

for.cond.for.end_crit_edge:                       ; preds = %for.body
  %split = phi i32 [ %add, %for.body ]
  br label %for.end

for.end:                                          ; preds = %for.cond.for.end_crit_edge, %entry
  %sum.0.lcssa = phi i32 [ %split, %for.cond.for.end_crit_edge ], [ 0, %entry ]
  ret i32 %sum.0.lcssa
}
