%implicit_tokens w t
%% S: 'x';